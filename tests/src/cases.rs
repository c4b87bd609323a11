//! Inputs for the script program: the paper's sample, the edges of the grammar,
//! lines of all lengths, the stories in examples/, and random scripts.

use std::fs;
use std::path::{Path, PathBuf};

use crate::author::Author;
use crate::model::{BYTES, Lengths, Model, State, WORDS};
use crate::rng::Rng;
use crate::script::line_of;
use crate::worlds;
use tupehiwo::ffi::{Order, Request, code};

/// An input and what it must print.
pub struct Case {
    pub name: String,
    pub input: Vec<u8>,
    pub output: Vec<u8>,
}

impl Case {
    fn new(name: impl Into<String>, input: &[u8], output: &[u8]) -> Case {
        Case { name: name.into(), input: input.to_vec(), output: output.to_vec() }
    }
}

/// The paper's sample, with and without the last line feed.
pub fn sample() -> Vec<Case> {
    let input = b"start 2 1 3 2\nroot 0 0 10 1\nroot 0 0 11 0\nrun 0 11 1 0 0\nrun 0 11 2 0 0\n\
                  invoke 1 2\nwrite 1 0 10\nmark 1\nspread\n";
    let output = b"0\n0\n0\n0\n0\n0\n11\n0\n0 1\nmarked 1 2\n";
    let unended = input.trim_ascii_end();
    vec![Case::new("sample", input, output), Case::new("sample-unended", unended, output)]
}

/// Lines at the edges of the grammar, and what they print.
const EDGES: &[(&str, &str)] = &[
    ("", "marked\n"),
    ("\n", "bad\nmarked\n"),
    ("\n\n", "bad\nbad\nmarked\n"),
    ("spread", "2 0\nmarked\n"),
    ("spread\n", "2 0\nmarked\n"),
    ("mark 0\nstep 0\nread 0 0 0\n", "2\n2\n2\nmarked\n"),
    ("start 1 0 1", "0\nmarked\n"),
    ("start 1 0 1\nmark 0", "0\n0\nmarked 0\n"),
    ("start 1 0 1\nmark 00000", "0\n0\nmarked 0\n"),
    ("start 1 0 1\nmark 000000", "0\nbad\nmarked\n"),
    ("start 1 0 1\nmark 65535", "0\n4\nmarked\n"),
    ("start 1 0 1\nmark 65536", "0\nbad\nmarked\n"),
    ("start 1 0 1\nmark 99999", "0\nbad\nmarked\n"),
    ("start 00001 00000 00001", "0\nmarked\n"),
    ("start 17", "3\nmarked\n"),
    ("start 17 ", "3\nmarked\n"),
    ("start 17 junk  \t", "3\nmarked\n"),
    ("start 65535 1", "3\nmarked\n"),
    ("start 17x", "bad\nmarked\n"),
    ("start 17\t", "bad\nmarked\n"),
    ("start 65536", "bad\nmarked\n"),
    ("start 000017", "bad\nmarked\n"),
    ("start", "bad\nmarked\n"),
    ("start ", "bad\nmarked\n"),
    ("start 0", "bad\nmarked\n"),
    ("start 0 0", "3\nmarked\n"),
    ("start 0 0 1", "bad\nmarked\n"),
    ("start 2 1 3", "bad\nmarked\n"),
    ("start 2 1 3 2 0", "bad\nmarked\n"),
    ("start 2 1 3 2\nstart 2 2 3 2\nroot 0 0 5 1", "0\n3\n0\nmarked\n"),
    ("start 1 0 1\nspread 0", "0\nbad\nmarked\n"),
    ("start 1 0 1\nspread ", "0\nbad\nmarked\n"),
    ("start 1 0 1\n spread", "0\nbad\nmarked\n"),
    ("start 1 0 1\nmark  0", "0\nbad\nmarked\n"),
    ("start 1 0 1\nmark\t0", "0\nbad\nmarked\n"),
    ("start 1 0 1\nmark 0\r\n", "0\nbad\nmarked\n"),
    ("start 1 0 1\nmark 0\0", "0\nbad\nmarked\n"),
    ("start 1 0 1\nMark 0", "0\nbad\nmarked\n"),
    ("start 1 0 1\nmark +0", "0\nbad\nmarked\n"),
    ("start 1 0 1\nmark -0", "0\nbad\nmarked\n"),
    ("start 1 0 1\nmark", "0\nbad\nmarked\n"),
    ("start 1 0 1\nmark 0 0", "0\nbad\nmarked\n"),
    ("start 1 0 1\nreport\nexecute 0 0 1 0 0", "0\nbad\nbad\nmarked\n"),
    ("start 1 0 1\nmar\nmarks 0", "0\nbad\nbad\nmarked\n"),
];

/// The edges of the grammar.
pub fn edges() -> Vec<Case> {
    let named = |(n, (input, output)): (usize, &(&str, &str))| {
        Case::new(format!("edge-{n}"), input.as_bytes(), output.as_bytes())
    };
    EDGES.iter().enumerate().map(named).collect()
}

/// Lines far longer than any call, each between two that are good.
pub fn long_lines() -> Vec<Case> {
    let mut lines: Vec<(Vec<u8>, &str)> = Vec::new();
    for (length, bytes) in [(100_000, &b"x 09\0\xFF"[..]), (1 << 20, b"9 ")] {
        for &byte in bytes {
            let rest = vec![byte; length];
            lines.push(([b"start 17 ", &rest[..]].concat(), "3"));
            lines.push(([b"mark 0", &rest[..]].concat(), "bad"));
            lines.push(([&rest[..], b"mark 0"].concat(), "bad"));
        }
    }
    vec![between_good_lines("long-lines", &lines)]
}

/// A start of sixteen levels in a line, each number in five digits: no call is longer.
pub fn longest_call() -> String {
    let rows = (0..16).map(|level| format!(" {:05}", u16::MAX << level));
    format!("start 00016 00015{}", rows.collect::<String>())
}

/// Lines of every length about that of the longest call, of each kind. What stands
/// at a line's end would be a good line if the line were cut there.
pub fn lengths_of_lines() -> Vec<Case> {
    let kinds: [(&str, fn(usize) -> (String, &'static str)); 8] = [
        ("too-many", |length| (padded("start 17 ", "x", length, ""), "3")),
        ("too-many-spaces", |length| (padded("start 17", " ", length, ""), "3")),
        ("no-count", |length| (padded("start 17", "7", length, ""), "bad")),
        ("spaces-behind", |length| (padded("mark 0", " ", length, ""), "bad")),
        ("zeros-behind", |length| (padded("mark ", "0", length, ""), "bad")),
        ("good-end", |length| (padded("", "x", length, "spread"), "bad")),
        ("good-end-after-spaces", |length| (padded("mark 0", " ", length, "mark 0"), "bad")),
        ("longest", cut_or_extended),
    ];
    let mut cases = Vec::new();
    for (name, line_of) in kinds {
        let lines: Vec<(Vec<u8>, &str)> =
            (100..=140).map(|length| (line_of(length).0.into_bytes(), line_of(length).1)).collect();
        cases.push(between_good_lines(name, &lines));
        for (line, answer) in &lines[10..32] {
            let name = format!("{name}-unended-{}", line.len());
            cases.push(Case::new(name, line, format!("{answer}\nmarked\n").as_bytes()));
        }
    }
    cases
}

/// As many of a byte between a beginning and an end that the line has this length.
fn padded(begin: &str, byte: &str, length: usize, end: &str) -> String {
    format!("{begin}{}{end}", byte.repeat(length - begin.len() - end.len()))
}

/// The longest call cut to a length, or with a further row. Cut within its last
/// row it is a start still, under an order that fails.
fn cut_or_extended(length: usize) -> (String, &'static str) {
    let call = longest_call();
    match length {
        113 => (call, "0"),
        109..113 => (call[..length].into(), "3"),
        114.. => (padded(&format!("{call} "), "0", length, ""), "bad"),
        _ => (call[..length].into(), "bad"),
    }
}

/// Lines and their answers, each between two spreads that must be granted.
fn between_good_lines(name: &str, lines: &[(Vec<u8>, &str)]) -> Case {
    let (mut input, mut output) = (b"start 1 0 1\nspread\n".to_vec(), "0\n0 0\n".to_string());
    for (line, answer) in lines {
        input.extend([line, &b"\nspread\n"[..]].concat());
        output += &format!("{answer}\n0 0\n");
    }
    Case::new(name, &input, format!("{output}marked\n").as_bytes())
}

/// As many empty lines: each is bad.
pub fn empty_lines(count: usize) -> Case {
    let output = format!("{}marked\n", "bad\n".repeat(count));
    Case::new(format!("empty-lines-{count}"), &vec![b'\n'; count], output.as_bytes())
}

/// A script with lines put in so that one ends at each multiple of `size`, or a
/// byte before or behind it, as `place` is 0, -1 or 1.
pub fn aligned(script: &[u8], size: usize, place: isize) -> Vec<u8> {
    let mut input = Vec::new();
    let mut end = size.saturating_add_signed(place);
    for line in script.split_inclusive(|&byte| byte == b'\n') {
        while input.len() + line.len() > end {
            input.extend(filler(end - input.len()));
            end += size;
        }
        input.extend(line);
    }
    input
}

/// A line of as many bytes, its line feed counted, that changes nothing.
fn filler(bytes: usize) -> Vec<u8> {
    let refused = b"start 17 ";
    let mut line = vec![b'x'; bytes];
    if bytes > refused.len() {
        line[..refused.len()].copy_from_slice(refused);
    }
    line.last_mut().into_iter().for_each(|byte| *byte = b'\n');
    line
}

/// The stories in examples/.
pub fn stories() -> Vec<Case> {
    let folder = Path::new(env!("CARGO_MANIFEST_DIR")).join("../examples");
    let entries = fs::read_dir(&folder).expect("the repository has examples");
    let paths = entries.map(|entry| entry.expect("an entry can be read").path());
    let is_script = |path: &PathBuf| path.extension().is_some_and(|end| end == "script");
    let story = |script: PathBuf| {
        let input = fs::read(&script).expect("a script can be read");
        let output = fs::read(script.with_extension("out")).expect("a script has its output");
        let name = script.file_stem().expect("a script has a name").to_string_lossy();
        Case::new(name, &input, &output)
    };
    paths.filter(is_script).map(story).collect()
}

/// A script whose calls look at the state.
pub fn random_script(rng: &mut Rng, lines: usize) -> Vec<u8> {
    let pool: Vec<u16> = (1..30).chain(120..128).collect();
    let mut model = Model::new(State::read(&[0; BYTES], &[0; WORDS]));
    let mut order = Order::default();
    let mut script = String::new();
    for line in 0..lines {
        let mut author = Author { rng, state: &model.state, order: &order, pool: &pool };
        let request = if line == 0 { Request::default() } else { author.request() };
        let starting = request.code == code::START;
        let lent = if starting { order_of_start(rng) } else { order };
        script += &line_of(request, &lent);
        script.push('\n');
        let granted = model.perform(Lengths::RIGHT, &lent, request).verdict == 0;
        if starting && granted {
            order = lent;
        }
    }
    script.into_bytes()
}

/// Mostly one that passes.
fn order_of_start(rng: &mut Rng) -> Order {
    let order = worlds::order(rng);
    if rng.once_in(3) { worlds::other_order(rng, order) } else { order }
}

/// Some bytes replaced, put in or taken out, mostly by those that the grammar knows.
pub fn damage(rng: &mut Rng, script: &mut Vec<u8>) {
    for _ in 0..1 + script.len() / 60 {
        let known = b"0123456789   \n\n\t\r\0-+xstart";
        let byte = if rng.once_in(10) { rng.bits() as u8 } else { rng.pick(known) };
        let place = rng.below(script.len() + 1);
        match script.get_mut(place) {
            Some(old) if rng.once_in(3) => *old = byte,
            Some(_) if rng.once_in(2) => drop(script.remove(place)),
            _ => script.insert(place, byte),
        }
    }
}
