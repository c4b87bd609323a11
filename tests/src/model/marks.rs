//! Marking: from outside, by a step, by a spread; and the report.

use super::state::{Mark, Number, Object, State, Task, Thing};
use super::{Outcome, Verdict, require};
use tupehiwo::ffi::Report;

impl State {
    pub fn mark_from_outside(&mut self, e: Number) -> Outcome {
        let task = self.task(e)?;
        let mark = Mark::Outside;
        self.put(e, Thing::Task(Task { mark, ..task }));
        self.mark_all(self.objects_of(|driver| driver == e));
        Ok(Verdict::Granted)
    }

    pub fn step(&mut self, x: Number) -> Outcome {
        let marked = self.thing(x)?.is_marked();
        require(!marked && self.is_fed(x), Verdict::Still)?;
        self.mark_all(vec![x]);
        self.mark_all(self.objects_of(|driver| driver == x));
        Ok(Verdict::Granted)
    }

    /// Marks round by round; tells how many rounds marked something.
    pub fn spread(&mut self) -> u8 {
        let mut rounds = 0;
        while self.round() {
            rounds += 1;
        }
        rounds
    }

    /// One round; whether it marked anything.
    fn round(&mut self) -> bool {
        let marking = |&&(from, to): &&(Number, Number)| {
            self.is_marked(from) && self.thing(to).is_ok_and(|thing| !thing.is_marked())
        };
        let fed: Vec<Number> = self.flows.iter().filter(marking).map(|&(_, to)| to).collect();
        self.mark_all(fed.clone());
        let mut driven = self.objects_of(|driver| self.is_marked(driver));
        driven.retain(|&o| !self.is_marked(o));
        self.mark_all(driven.clone());
        !fed.is_empty() || !driven.is_empty()
    }

    pub fn report(&self) -> Report {
        let mut words = [0; 2];
        let mut ones = 0;
        for (n, _) in self.used().filter(|(_, thing)| thing.is_marked()) {
            words[usize::from(n) / 64] |= 1 << (n % 64);
            ones += 1;
        }
        Report { words, ones, verdict: Verdict::Granted as u8 }
    }

    fn is_fed(&self, x: Number) -> bool {
        self.flows.iter().any(|&(from, to)| to == x && self.is_marked(from))
    }

    fn objects_of(&self, is_driver: impl Fn(Number) -> bool) -> Vec<Number> {
        let objects = self.objects();
        objects.filter(|(_, object)| is_driver(object.driver)).map(|(n, _)| n).collect()
    }

    /// Marks things; a task that was marked from outside stays so.
    fn mark_all(&mut self, numbers: Vec<Number>) {
        for n in numbers {
            let marked = match self.things[usize::from(n)] {
                Thing::Task(task) if !task.is_marked() => {
                    let mark = Mark::Marked;
                    Thing::Task(Task { mark, ..task })
                }
                Thing::Object(object) => Thing::Object(Object { marked: true, ..object }),
                unchanged => unchanged,
            };
            self.put(n, marked);
        }
    }
}
