//! The model of the script program: it prints what the paper says.

use tupehiwo_tests::cases::{self, Case, damage, random_script};
use tupehiwo_tests::rng::{Rng, seed};
use tupehiwo_tests::script::output;

fn must_print(case: &Case) {
    let printed = output(&case.input);
    let text = String::from_utf8_lossy(&printed);
    assert!(printed == case.output, "{}: the model prints\n{text}", case.name);
}

#[test]
fn the_sample() {
    cases::sample().iter().for_each(must_print);
}

#[test]
fn the_edges_of_the_grammar() {
    cases::edges().iter().for_each(must_print);
}

#[test]
fn lines_of_every_length() {
    assert_eq!(cases::longest_call().len(), 113);
    cases::lengths_of_lines().iter().for_each(must_print);
    cases::long_lines().iter().for_each(must_print);
    must_print(&cases::empty_lines(1000));
}

#[test]
fn the_stories_in_examples() {
    let stories = cases::stories();
    assert_eq!(stories.len(), 4);
    stories.iter().for_each(must_print);
}

/// The random scripts are worth comparing: every verdict and bad lines occur.
#[test]
fn random_scripts_print_every_verdict() {
    let mut rng = Rng::new(seed("random_scripts_print_every_verdict"));
    let mut printed = Vec::new();
    for _ in 0..100 {
        let mut input = random_script(&mut rng, 300);
        printed.extend(output(&input));
        damage(&mut rng, &mut input);
        printed.extend(output(&input));
    }
    let text = String::from_utf8(printed).expect("only words and numbers are printed");
    let verdicts = (0..14).chain([16]).map(|verdict| verdict.to_string());
    for verdict in verdicts.chain(["bad".to_string()]) {
        assert!(text.lines().any(|line| line == verdict), "no script printed {verdict}");
    }
}
