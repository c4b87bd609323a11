//! What the script program must print for an input.

use crate::compare::next_marked;
use crate::model::{BYTES, Lengths, Model, State, WORDS};
use crate::request;
use tupehiwo::ffi::{Order, Request, code};

/// Each word but start, with its code and how many numbers follow it.
const WORDS_OF_CALLS: [(&str, u16, usize); 15] = [
    ("read", code::READ, 3),
    ("write", code::WRITE, 3),
    ("run", code::EXECUTE, 5),
    ("create", code::CREATE, 5),
    ("root", code::CREATE_ROOT, 4),
    ("move", code::MOVE, 5),
    ("delete", code::DELETE, 4),
    ("call", code::CALL, 2),
    ("invoke", code::INVOKE, 2),
    ("pass", code::PASS, 3),
    ("post", code::POST, 3),
    ("find", code::FIND, 3),
    ("mark", code::MARK, 1),
    ("step", code::STEP, 1),
    ("spread", code::SPREAD, 0),
];

/// What a line of the input is.
#[derive(Debug, PartialEq, Eq)]
enum Line {
    Start(Order),
    /// A start whose count is over 16: what follows the count is not read.
    TooMany,
    Call(Request),
    Bad,
}

/// The script program's memory, which begins as zeros.
struct Trail {
    model: Model,
    order: Order,
}

/// All that the program prints for an input.
pub fn output(input: &[u8]) -> Vec<u8> {
    let mut trail =
        Trail { model: Model::new(State::read(&[0; BYTES], &[0; WORDS])), order: Order::default() };
    let mut printed: Vec<String> = lines(input).map(|line| trail.answer(read(line))).collect();
    printed.push(trail.marked());
    let mut text = printed.join("\n");
    text.push('\n');
    text.into_bytes()
}

/// The line of a call, under the order that a start would take.
pub fn line_of(request: Request, order: &Order) -> String {
    let Request { code, a, b, c, d, e } = request;
    let known = WORDS_OF_CALLS.iter().find(|(_, known, _)| *known == code);
    let (word, numbers) = match known {
        Some(&(word, _, count)) => (word, [a, b, c, d, e][..count].to_vec()),
        None if code == code::START => {
            let rows = order.rows.iter().take(order.count.into());
            ("start", [&order.count, &order.top].into_iter().chain(rows).copied().collect())
        }
        None => ("unknown", vec![code]),
    };
    let numbers = numbers.iter().map(|number| format!(" {number}"));
    format!("{word}{}", numbers.collect::<String>())
}

impl Trail {
    fn answer(&mut self, line: Line) -> String {
        match line {
            Line::Bad => "bad".to_string(),
            Line::TooMany => "3".to_string(),
            Line::Start(order) => {
                let answer = self.model.perform(Lengths::RIGHT, &order, Request::default());
                if answer.verdict == 0 {
                    self.order = order;
                }
                answer.verdict.to_string()
            }
            Line::Call(request) => {
                let answer = self.model.perform(Lengths::RIGHT, &self.order, request);
                match request.code {
                    code::SPREAD => format!("{} {}", answer.verdict, answer.rounds),
                    _ => answer.verdict.to_string(),
                }
            }
        }
    }

    fn marked(&self) -> String {
        let report = self.model.report(Lengths::RIGHT, &self.order);
        let mut line = "marked".to_string();
        let mut from = 0;
        loop {
            let n = next_marked(&report, from);
            if n == 128 {
                return line;
            }
            line += &format!(" {n}");
            from = n + 1;
        }
    }
}

/// A line feed ends a line; the last may lack it.
fn lines(input: &[u8]) -> impl Iterator<Item = &[u8]> {
    input.split_inclusive(|&b| b == b'\n').map(|line| line.strip_suffix(b"\n").unwrap_or(line))
}

fn read(line: &[u8]) -> Line {
    let mut parts = line.split(|&b| b == b' ');
    let word = parts.next().unwrap_or_default();
    let parts: Vec<&[u8]> = parts.collect();
    if word == b"start" {
        return read_start(&parts);
    }
    let known = WORDS_OF_CALLS.iter().find(|(known, ..)| known.as_bytes() == word);
    let numbers: Option<Vec<u16>> = parts.into_iter().map(number).collect();
    match (known, numbers) {
        (Some(&(_, code, count)), Some(all)) if all.len() == count => {
            Line::Call(request(code, &all))
        }
        _ => Line::Bad,
    }
}

/// Count, top and as many rows as the count says.
fn read_start(parts: &[&[u8]]) -> Line {
    let Some(count) = parts.first().copied().and_then(number) else {
        return Line::Bad;
    };
    if count > 16 {
        return Line::TooMany;
    }
    let numbers: Option<Vec<u16>> = parts[1..].iter().copied().map(number).collect();
    let Some([top, given @ ..]) = numbers.as_deref() else {
        return Line::Bad;
    };
    if given.len() != usize::from(count) {
        return Line::Bad;
    }
    let mut rows = [0; 16];
    rows[..given.len()].copy_from_slice(given);
    Line::Start(Order { rows, count, top: *top })
}

/// One to five digits, at most 65,535.
fn number(text: &[u8]) -> Option<u16> {
    let digits = (1..=5).contains(&text.len()) && text.iter().all(u8::is_ascii_digit);
    let text = std::str::from_utf8(text).ok().filter(|_| digits)?;
    text.parse().ok()
}
