//! The paper's trials by name, the longest spreads, and other small worlds.

use tupehiwo::Verdict;
use tupehiwo::ffi::{Order, code};
use tupehiwo_tests::compare::{Pair, next_marked};
use tupehiwo_tests::model::{Lengths, Object, State, Thing};
use tupehiwo_tests::request;
use tupehiwo_tests::worlds::Q;

/// The library and the model under one order.
struct Trial {
    pair: Pair,
    order: Order,
}

impl Trial {
    fn new(order: Order) -> Trial {
        Trial { pair: Pair::started("trial", order), order }
    }

    fn ask(&mut self, code: u16, arguments: &[u16]) -> Verdict {
        let answer = self.pair.perform(self.order, request(code, arguments));
        Verdict::from_number(answer.verdict).expect("a verdict of the table")
    }

    fn grant(&mut self, code: u16, arguments: &[u16]) {
        assert_eq!(self.ask(code, arguments), Verdict::Granted, "code {code} of {arguments:?}");
    }

    fn spread(&mut self) -> u8 {
        let answer = self.pair.perform(self.order, request(code::SPREAD, &[]));
        assert_eq!(answer.verdict, Verdict::Granted as u8);
        answer.rounds
    }

    fn marked(&self) -> Vec<u16> {
        (0..128).filter(|&n| self.pair.byte(8 * usize::from(n) + 5) != 0).collect()
    }
}

fn verdict_of_start(order: Order) -> Verdict {
    let answer = Pair::new("start").perform(order, request(code::START, &[]));
    Verdict::from_number(answer.verdict).expect("a verdict of the table")
}

#[test]
fn p1_order_q_passes() {
    assert_eq!(verdict_of_start(Q), Verdict::Granted);
}

#[test]
fn p2_one_level_passes() {
    assert_eq!(verdict_of_start(Order::new(0, [1])), Verdict::Granted);
}

#[test]
fn p3_seventeen_levels_fail() {
    assert_eq!(verdict_of_start(Order { count: 17, ..Q }), Verdict::Order);
}

#[test]
fn p4_two_levels_below_each_other_fail() {
    assert_eq!(verdict_of_start(Order::new(1, [3, 3])), Verdict::Order);
}

#[test]
fn p5_levels_that_are_not_transitive_fail() {
    assert_eq!(verdict_of_start(Order::new(3, [11, 14, 12, 8])), Verdict::Order);
}

const TASK: u16 = 1;
const DRIVER: u16 = 2;
const OBJECT: u16 = 20;

/// Under Q: the task at 1, the object at 2, its driver at a level, none marked.
fn reading(read_level: u16, driver_level: u16) -> Trial {
    let mut trial = Trial::new(Q);
    trial.grant(code::CREATE_ROOT, &[0, 0, 10, 3]);
    trial.grant(code::EXECUTE, &[0, 10, TASK, 1, read_level]);
    trial.grant(code::EXECUTE, &[0, 10, DRIVER, driver_level, driver_level]);
    trial.grant(code::CREATE_ROOT, &[0, DRIVER, OBJECT, 2]);
    trial
}

#[test]
fn p6_a_read_by_the_read_level_gives_no_flow() {
    let mut trial = reading(0, 3);
    assert_eq!(trial.ask(code::READ, &[TASK, DRIVER, OBJECT]), Verdict::Granted);
    assert_eq!(trial.pair.flows(), 0);
}

#[test]
fn p7_an_honest_driver_refuses() {
    let mut trial = reading(1, 3);
    assert_eq!(trial.ask(code::READ, &[TASK, DRIVER, OBJECT]), Verdict::Rule);
    assert_eq!(trial.pair.flows(), 0);
}

#[test]
fn p8_a_marked_driver_lets_it_slip_with_two_flows() {
    let mut trial = reading(1, 3);
    trial.grant(code::MARK, &[DRIVER]);
    assert_eq!(trial.ask(code::READ, &[TASK, DRIVER, OBJECT]), Verdict::Slipped);
    assert_eq!(trial.pair.flows(), 2);
    assert!(trial.pair.has_flow(OBJECT, TASK));
    assert!(trial.pair.has_flow(DRIVER, TASK));
}

#[test]
fn p9_a_marked_driver_does_not_escape_the_path_test() {
    let mut trial = reading(1, 2);
    trial.grant(code::MARK, &[DRIVER]);
    assert_eq!(trial.ask(code::READ, &[TASK, DRIVER, OBJECT]), Verdict::Path);
    assert_eq!(trial.pair.flows(), 0);
}

#[test]
fn p10_an_invoke_between_unrelated_levels_is_refused() {
    let mut trial = reading(1, 2);
    assert_eq!(trial.ask(code::INVOKE, &[TASK, DRIVER]), Verdict::Rule);
}

#[test]
fn number_127_is_fit_and_128_is_not() {
    let mut trial = Trial::new(Q);
    assert_eq!(trial.ask(code::CREATE_ROOT, &[0, 0, 128, 0]), Verdict::Number);
    assert_eq!(trial.ask(code::CREATE_ROOT, &[0, 0, 127, 0]), Verdict::Granted);
    assert_eq!(trial.ask(code::WRITE, &[0, 0, 127]), Verdict::Granted);
    assert!(trial.pair.has_flow(0, 127));
}

#[test]
fn a_task_calling_itself_feeds_itself() {
    let mut trial = Trial::new(Q);
    assert_eq!(trial.ask(code::CALL, &[0, 0]), Verdict::Granted);
    assert_eq!(trial.pair.flows(), 1);
    assert!(trial.pair.has_flow(0, 0));
}

#[test]
fn a_number_given_out_again_keeps_no_flow() {
    let mut trial = Trial::new(Q);
    let (container, scratch) = (10, 70);
    trial.grant(code::CREATE_ROOT, &[0, 0, container, 3]);
    trial.grant(code::WRITE, &[0, 0, container]);
    trial.grant(code::CREATE, &[0, 0, scratch, container, 3]);
    trial.grant(code::WRITE, &[0, 0, scratch]);
    trial.grant(code::READ, &[0, 0, scratch]);
    assert!(trial.pair.has_flow(0, scratch) && trial.pair.has_flow(scratch, 0));
    trial.grant(code::DELETE, &[0, 0, scratch, container]);
    trial.grant(code::CREATE, &[0, 0, scratch, container, 3]);
    assert!(!trial.pair.has_flow(0, scratch) && !trial.pair.has_flow(scratch, 0));
    // The accesses are gone too: nothing may be created in it.
    trial.grant(code::CREATE_ROOT, &[0, 0, 11, 3]);
    assert_eq!(trial.ask(code::CREATE, &[0, 0, 12, scratch, 3]), Verdict::Held);
}

/// Tasks 2 to 127 of one level, each invoking the next; 1 is the core's image.
fn chain_of_tasks() -> Trial {
    let mut trial = Trial::new(Order::new(0, [1]));
    trial.grant(code::CREATE_ROOT, &[0, 0, 1, 0]);
    for task in 2..128 {
        trial.grant(code::EXECUTE, &[0, 1, task, 0, 0]);
    }
    for task in 2..127 {
        trial.grant(code::INVOKE, &[task, task + 1]);
    }
    trial
}

#[test]
fn a_chain_of_126_rounds() {
    let mut trial = chain_of_tasks();
    trial.grant(code::INVOKE, &[127, 0]);
    trial.grant(code::MARK, &[2]);
    // 125 tasks, then the core and with it its image.
    assert_eq!(trial.spread(), 126);
    assert_eq!(trial.marked(), (0..128).collect::<Vec<u16>>());
    assert_eq!(trial.spread(), 0);
}

#[test]
fn the_longest_chain_has_127_rounds() {
    let mut trial = chain_of_tasks();
    trial.grant(code::WRITE, &[127, 0, 1]);
    trial.grant(code::READ, &[0, 0, 1]);
    trial.grant(code::MARK, &[2]);
    assert_eq!(trial.spread(), 127);
    assert_eq!(trial.marked().len(), 128);
}

#[test]
fn a_round_of_objects_alone_counts() {
    let mut trial = Trial::new(Order::new(0, [1]));
    trial.grant(code::CREATE_ROOT, &[0, 0, 1, 0]);
    // A marked driver with an unmarked object: no list of calls leaves this.
    trial.pair.set_byte(5, 1);
    assert_eq!(trial.marked(), [0]);
    assert_eq!(trial.spread(), 1);
    assert_eq!(trial.marked(), [0, 1]);
}

#[test]
fn a_step_goes_one_flow_far_and_takes_the_objects_along() {
    let mut trial = chain_of_tasks();
    trial.grant(code::INVOKE, &[3, 0]);
    trial.grant(code::MARK, &[2]);
    assert_eq!(trial.ask(code::STEP, &[0]), Verdict::Still);
    assert_eq!(trial.ask(code::STEP, &[2]), Verdict::Still);
    trial.grant(code::STEP, &[3]);
    trial.grant(code::STEP, &[0]);
    assert_eq!(trial.marked(), [0, 1, 2, 3]);
}

#[test]
fn a_mark_repeated_changes_only_the_cores_tally() {
    let mut trial = reading(1, 3);
    trial.grant(code::MARK, &[DRIVER]);
    let mut expected = trial.pair.model.clone();
    expected.tallies[0].granted += 1;
    trial.grant(code::MARK, &[DRIVER]);
    assert!(trial.pair.model == expected);
}

/// Each number is the only object in a container, the only marked source of a
/// flow, and the last object of a driver: no loop may leave it out.
#[test]
fn every_number_is_looked_at() {
    let mut pair = Pair::new("each number");
    for number in 3..128 {
        let object = |container, marked| Object { level: 0, driver: 0, container, marked };
        let mut state = State::started(Q.top);
        state.put(1, Thing::Object(object(None, false)));
        state.put(2, Thing::Object(object(Some(1), false)));
        state.put(number, Thing::Object(object(Some(2), true)));
        state.writes.insert((0, 1));
        state.flows.insert((number, 0));
        let mut verdict_of = |code, arguments: &[u16]| {
            pair.set_state(state.clone());
            pair.perform(Q, request(code, arguments)).verdict
        };
        assert_eq!(verdict_of(code::DELETE, &[0, 0, 2, 1]), 12, "{number} in the container");
        assert_eq!(verdict_of(code::STEP, &[0]), 0, "{number} feeds the core");
        state.put(number, Thing::Object(object(None, false)));
        pair.set_state(state);
        assert_eq!(pair.perform(Q, request(code::MARK, &[0])).verdict, 0);
        let report = pair.report_with(Lengths::RIGHT, Q);
        assert_eq!((report.ones, next_marked(&report, 3)), (4, number));
    }
}
