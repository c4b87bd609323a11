//! The script program itself, held to the model.

use std::fs::{self, File};
use std::io::{BufReader, Read, Write};
use std::path::Path;
use std::process::{Child, ChildStdout, Command, Stdio};
use std::sync::mpsc;
use std::thread;
use std::time::Duration;

use tupehiwo_tests::cases::{self, Case, aligned, damage, random_script};
use tupehiwo_tests::rng::{Rng, seed};
use tupehiwo_tests::script::output;
use tupehiwo_tests::trail;

/// The input is given as a file, which stays where the program fails.
fn must_print(name: &str, input: &[u8], expected: &[u8]) {
    let path = Path::new(env!("CARGO_TARGET_TMPDIR")).join(name);
    fs::write(&path, input).expect("the input can be stored");
    let stdin = File::open(&path).expect("the input can be read");
    let run = Command::new(trail()).stdin(stdin).output().expect("the program runs");
    let place = first_difference(&run.stdout, expected);
    assert!(run.stdout == expected, "for {} it prints otherwise at {place}", path.display());
    assert!(run.status.success(), "for {} it ends with {}", path.display(), run.status);
    fs::remove_file(&path).expect("the input can be removed");
}

fn first_difference(printed: &[u8], expected: &[u8]) -> String {
    let lines = |bytes| String::from_utf8_lossy(bytes).lines().map(String::from).collect();
    let (printed, expected): (Vec<String>, Vec<String>) = (lines(printed), lines(expected));
    let place = printed.iter().zip(&expected).position(|(a, b)| a != b);
    place.map_or("its end".into(), |n| format!("line {}: {}", n + 1, printed[n]))
}

fn must_print_all(cases: &[Case]) {
    cases.iter().for_each(|case| must_print(&case.name, &case.input, &case.output));
}

#[test]
fn the_sample() {
    must_print_all(&cases::sample());
}

#[test]
fn the_edges_of_the_grammar() {
    must_print_all(&cases::edges());
}

/// What the program keeps of a line must settle it, and the rest be no line of its own.
#[test]
fn lines_of_every_length() {
    must_print_all(&cases::lengths_of_lines());
    must_print_all(&cases::long_lines());
}

#[test]
fn many_empty_lines() {
    must_print_all(&[cases::empty_lines(200_000)]);
}

#[test]
fn the_stories_in_examples() {
    must_print_all(&cases::stories());
}

#[test]
fn random_and_damaged_scripts() {
    let first = seed("random_and_damaged_scripts");
    for number in 0..300 {
        let seed = first.wrapping_add(number);
        let mut rng = Rng::new(seed);
        let lines = rng.pick(&[1, 5, 40, 400]);
        let mut input = random_script(&mut rng, lines);
        if rng.once_in(2) {
            damage(&mut rng, &mut input);
        }
        must_print(&format!("script-of-seed-{seed}"), &input, &output(&input));
    }
}

/// A script of many times the size of any buffer.
#[test]
fn a_large_script() {
    let mut rng = Rng::new(seed("a_large_script"));
    let input = random_script(&mut rng, 60_000);
    must_print("large-script", &input, &output(&input));
}

/// Input of several times the size of a buffer, with line ends about where one
/// block of it ends and the next begins.
#[test]
fn line_ends_at_the_ends_of_blocks() {
    let mut rng = Rng::new(seed("line_ends_at_the_ends_of_blocks"));
    let script = random_script(&mut rng, 12_000);
    assert!(script.len() > 131_072);
    for size in [512, 4096, 16_384] {
        for place in [-1, 0, 1] {
            let input = aligned(&script, size, place);
            let ends = (1..input.len() / size).map(|block| (block * size) as isize + place);
            assert!(ends.into_iter().all(|end| input[end as usize - 1] == b'\n'));
            must_print(&format!("blocks-{size}-{place}"), &input, &output(&input));
        }
    }
}

/// The program with pipes, to be spoken with.
fn spoken_with() -> Child {
    let mut command = Command::new(trail());
    command.stdin(Stdio::piped()).stdout(Stdio::piped());
    command.spawn().expect("the program runs")
}

/// What the program says, byte by byte as it comes.
fn listen(stdout: ChildStdout) -> mpsc::Receiver<u8> {
    let (say, heard) = mpsc::channel();
    thread::spawn(move || {
        let bytes = BufReader::new(stdout).bytes().map_while(Result::ok);
        bytes.map_while(|byte| say.send(byte).ok()).count()
    });
    heard
}

/// As many bytes, or fewer if the next does not come within ten seconds.
fn hear(heard: &mpsc::Receiver<u8>, count: usize) -> String {
    let next = |_| heard.recv_timeout(Duration::from_secs(10)).ok();
    (0..count).map_while(next).map(char::from).collect()
}

#[test]
fn it_answers_before_it_reads_on() {
    let mut child = spoken_with();
    let mut stdin = child.stdin.take().expect("a pipe to the program");
    let heard = listen(child.stdout.take().expect("a pipe from the program"));
    for (said, answer) in [("start 1 0 1\n", "0\n"), ("mark 0\nspre", "0\n"), ("ad\n", "0 0\n")] {
        stdin.write_all(said.as_bytes()).expect("the program listens");
        assert_eq!(hear(&heard, answer.len()), answer, "after {said:?}");
    }
    drop(stdin);
    assert_eq!(hear(&heard, usize::MAX), "marked 0\n");
    assert!(child.wait().expect("the program ends").success());
}

/// What the program prints when the input comes in pieces of up to `most` bytes.
fn printed_for_pieces(rng: &mut Rng, input: &[u8], most: usize) -> Vec<u8> {
    let mut rest = input.to_vec();
    let mut pieces = Vec::new();
    while !rest.is_empty() {
        let size = 1 + rng.below(most.min(rest.len()));
        pieces.push(rest.drain(..size).collect::<Vec<u8>>());
    }
    let mut child = spoken_with();
    let mut stdin = child.stdin.take().expect("a pipe to the program");
    let speaker = thread::spawn(move || {
        for piece in pieces {
            stdin.write_all(&piece).expect("the program listens");
            thread::sleep(Duration::from_micros(50));
        }
    });
    let printed = child.wait_with_output().expect("the program ends");
    speaker.join().expect("all pieces were said");
    printed.stdout
}

#[test]
fn input_in_pieces() {
    let mut rng = Rng::new(seed("input_in_pieces"));
    for (most, lines) in [(1, 60), (1, 200), (2, 60), (9, 200), (40, 600), (6000, 6000)] {
        let input = random_script(&mut rng, lines);
        let printed = printed_for_pieces(&mut rng, &input, most);
        assert!(printed == output(&input), "{lines} lines in pieces of up to {most} bytes");
    }
}
