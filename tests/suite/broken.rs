//! The script program where its input or output breaks: it ends, says so on
//! standard error, and prints no line of marked numbers.

use std::fs;
use std::io::{Read, Write};
use std::os::fd::OwnedFd;
use std::os::unix::net::UnixStream;
use std::os::unix::process::ExitStatusExt;
use std::path::Path;
use std::process::{Child, Command, Output, Stdio};
use std::sync::{Mutex, MutexGuard, PoisonError};
use std::thread;
use std::time::{Duration, Instant};

use tupehiwo_tests::cases;
use tupehiwo_tests::script::output;
use tupehiwo_tests::trail;

const INPUT: &str = "standard input";
const OUTPUT: &str = "standard output";

/// Inputs whose answers fail in different places: with the last line alone, with
/// the first answers, and with the buffers full.
fn inputs() -> Vec<Vec<u8>> {
    let sample = cases::sample().remove(0).input;
    vec![Vec::new(), b"spread".to_vec(), sample, cases::empty_lines(20_000).input]
}

/// The program begun by a line of shell, which can close and limit what it gets.
fn by_shell(line: &str) -> Command {
    let mut command = Command::new("sh");
    command.arg("-c").arg(line).arg(trail());
    command.stdin(Stdio::piped()).stdout(Stdio::piped()).stderr(Stdio::piped());
    command
}

/// Held while a program is begun. Until it runs, a copy of this process stands in its place and
/// has our ends of all pipes: one that is closed here at that moment is still open there.
fn alone() -> MutexGuard<'static, ()> {
    static BEGINNING: Mutex<()> = Mutex::new(());
    BEGINNING.lock().unwrap_or_else(PoisonError::into_inner)
}

fn begun(command: &mut Command) -> Child {
    let _alone = alone();
    command.spawn().expect("the program runs")
}

/// Waits for the end, for ten seconds.
fn must_end(mut child: Child) -> Output {
    let begin = Instant::now();
    while child.try_wait().expect("the program can be waited for").is_none() {
        if begin.elapsed() > Duration::from_secs(10) {
            child.kill().expect("the program can be stopped");
            panic!("the program does not end");
        }
        thread::sleep(Duration::from_millis(1));
    }
    child.wait_with_output().expect("what it said can be read")
}

/// Speaks this input; a program that ends before it has read all of it is fine.
fn speak(mut child: Child, input: &[u8]) -> Output {
    let mut stdin = child.stdin.take().expect("a pipe to the program");
    let input = input.to_vec();
    let speaker = thread::spawn(move || stdin.write_all(&input).is_ok());
    let ended = must_end(child);
    speaker.join().expect("the input was said or refused");
    ended
}

fn run(line: &str, input: &[u8]) -> Output {
    speak(begun(&mut by_shell(line)), input)
}

/// It told which side broke, and printed no list.
fn must_say(ended: &Output, side: &str, printed: &[u8]) {
    let said = String::from_utf8_lossy(&ended.stderr);
    assert!(said.contains(side), "it says on standard error: {said:?}");
    let printed = String::from_utf8_lossy(printed);
    assert!(!printed.contains("marked"), "it prints {printed:?}");
}

/// The shell gives it a broken input: nothing is answered.
fn must_refuse_input(line: &str) {
    let ended = must_end(begun(&mut by_shell(line)));
    must_say(&ended, INPUT, &ended.stdout);
    assert_eq!(ended.stdout, b"", "it answers what it cannot have read");
}

#[test]
fn a_directory_as_input() {
    must_refuse_input("exec \"$0\" </");
}

#[test]
fn no_input() {
    must_refuse_input("exec \"$0\" <&-");
}

/// An input that breaks off after some lines, perhaps within one: what came whole
/// is answered, and no more.
#[test]
fn an_input_that_breaks_off() {
    for (said, answers) in
        [("start 1 0 1\nmark 0\n", "0\n0\n"), ("start 1 0 1\nmark 0", "0\n"), ("start 17", "")]
    {
        let (mut ours, theirs) = UnixStream::pair().expect("two ends of a line");
        // Nothing to read is a failure then, and not the input's end.
        theirs.set_nonblocking(true).expect("a line that breaks off");
        ours.write_all(said.as_bytes()).expect("the line takes it");
        let mut command = by_shell("exec \"$0\"");
        let ended = must_end(begun(command.stdin(OwnedFd::from(theirs))));
        must_say(&ended, INPUT, &ended.stdout);
        assert_eq!(String::from_utf8_lossy(&ended.stdout), answers, "after {said:?}");
    }
}

#[test]
fn a_full_device_as_output() {
    for input in inputs() {
        must_say(&run("exec \"$0\" >/dev/full", &input), OUTPUT, b"");
    }
}

#[test]
fn no_output() {
    for input in inputs() {
        must_say(&run("exec \"$0\" >&-", &input), OUTPUT, b"");
    }
}

/// Its output is a pipe that nobody reads.
fn run_unheard(line: &str, input: &[u8]) -> Output {
    let alone = alone();
    let mut child = by_shell(line).spawn().expect("the program runs");
    drop(child.stdout.take());
    drop(alone);
    speak(child, input)
}

#[test]
fn a_closed_pipe_as_output() {
    for input in inputs() {
        // The signal is ignored, so that the write fails: it says so.
        let ended = run_unheard("trap '' PIPE; exec \"$0\"", &input);
        must_say(&ended, OUTPUT, b"");
        // Where it is not, a program in Rattle ignores it from its start.
        let ended = run_unheard("exec \"$0\"", &input);
        assert_eq!(ended.status.signal(), None);
        must_say(&ended, OUTPUT, b"");
    }
}

/// A file that may not grow past some blocks of 512 bytes: what is in it is the
/// beginning of the answers.
#[test]
fn an_output_that_breaks_off() {
    let path = Path::new(env!("CARGO_TARGET_TMPDIR")).join("cut-off");
    let line = format!("ulimit -f 25; trap '' XFSZ; exec \"$0\" >{}", path.display());
    for input in [cases::empty_lines(20_000).input, b"start 17\nspread\n\n".repeat(5000)] {
        let ended = run(&line, &input);
        let printed = fs::read(&path).expect("what it printed can be read");
        must_say(&ended, OUTPUT, &printed);
        assert!(!printed.is_empty() && output(&input).starts_with(&printed));
    }
    fs::remove_file(&path).expect("what it printed can be removed");
}

/// A file that is full within the last line: a list that was cut off lacks its
/// line feed.
#[test]
fn a_list_that_breaks_off() {
    let path = Path::new(env!("CARGO_TARGET_TMPDIR")).join("cut-list");
    let line = format!("ulimit -f 1; trap '' XFSZ; exec \"$0\" >{}", path.display());
    for bad in 121..=126 {
        let input = [b"start 1 0 1\nmark 0\n".as_slice(), &b"\n".repeat(bad)].concat();
        let ended = run(&line, &input);
        let printed = fs::read(&path).expect("what it printed can be read");
        let (whole, told) = (output(&input), String::from_utf8_lossy(&ended.stderr));
        assert!(whole.starts_with(&printed) && printed.len() == whole.len().min(512));
        assert_eq!(printed.ends_with(b"\n"), printed.len() == whole.len(), "{printed:?}");
        assert_eq!(told.contains(OUTPUT), printed.len() < whole.len(), "{told:?}");
    }
    fs::remove_file(&path).expect("what it printed can be removed");
}

/// Both ends of a line whose writer never waits: a full one is a failure.
fn impatient_line() -> (UnixStream, UnixStream) {
    let (ours, theirs) = UnixStream::pair().expect("two ends of a line");
    theirs.set_nonblocking(true).expect("a line that can be full");
    (ours, theirs)
}

/// An output that fails once and then takes more: no answer may follow the gap.
/// Standard error is full at first, so that the program waits with its message
/// until the output has room again.
#[test]
fn an_output_that_fails_for_a_while() {
    let line = |n: usize| if n * n % 97 == 3 { "spread\n" } else { "\n" };
    let input = (0..200_000).map(line).collect::<String>().into_bytes();
    let (mut ours, theirs) = impatient_line();
    let (mut told, mut tell) = impatient_line();
    while tell.write(&[b'.'; 512]).is_ok() {}
    tell.set_nonblocking(false).expect("a line that waits");
    let mut command = by_shell("exec \"$0\"");
    command.stdout(OwnedFd::from(theirs)).stderr(OwnedFd::from(tell));
    let mut child = begun(&mut command);
    drop(command);
    let mut stdin = child.stdin.take().expect("a pipe to the program");
    let expected = output(&input);
    let speaker = thread::spawn(move || stdin.write_all(&input).is_ok());
    thread::sleep(Duration::from_millis(300));
    let mut printed = vec![0; 1 << 20];
    let before = ours.read(&mut printed).expect("the first answers");
    printed.truncate(before);
    let listener = thread::spawn(move || told.read_to_end(&mut Vec::new()));
    ours.read_to_end(&mut printed).expect("the other answers");
    must_end(child);
    speaker.join().expect("the input was said or refused");
    listener.join().expect("it was heard").expect("what it said can be read");
    assert!(expected.starts_with(&printed), "answers follow a gap");
}
