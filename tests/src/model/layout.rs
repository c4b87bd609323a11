//! The power-up layout of the second paper: its text, its reading as a tree, and
//! the calls that it makes.

use super::{Number, Verdict, require};
use crate::request;
use tupehiwo::ffi::{Request, code};

/// "The text is at most 16 KiB."
pub const LAYOUT_BYTES: usize = 16 * 1024;
/// "Objects hold objects, up to eight deep."
pub const LAYOUT_DEPTH: usize = 8;

#[derive(Clone, Debug, PartialEq, Eq)]
pub enum Form {
    Object(Drawer),
    Task { number: Number, image: Number, level: u16, reads: u16 },
}

/// An object with those that it holds.
#[derive(Clone, Debug, PartialEq, Eq)]
pub struct Drawer {
    pub number: Number,
    pub driver: Number,
    pub level: u16,
    pub holds: Vec<Drawer>,
}

/// The text of forms, one after the other.
pub fn written(forms: &[Form]) -> Vec<u8> {
    let line = |form: &Form| match form {
        Form::Object(drawer) => format!("{}\n", drawer.text()),
        Form::Task { number, image, level, reads } => {
            format!("(task {number} image {image} level {level} reads {reads})\n")
        }
    };
    forms.iter().map(line).collect::<String>().into_bytes()
}

/// The forms of a text: verdict 14 outside the grammar, then 15 for a ninth level.
pub fn read_layout(text: &[u8]) -> Result<Vec<Form>, Verdict> {
    require(text.len() <= LAYOUT_BYTES, Verdict::Form)?;
    let mut forms = Vec::new();
    let mut rest = text;
    while !rest.is_empty() {
        let (form, behind) = form(rest).ok_or(Verdict::Form)?;
        forms.push(form);
        rest = behind.strip_prefix(b"\n").ok_or(Verdict::Form)?;
    }
    let deep = |form: &Form| matches!(form, Form::Object(root) if root.depth() > LAYOUT_DEPTH);
    require(!forms.iter().any(deep), Verdict::Deep)?;
    Ok(forms)
}

/// The calls of a layout, in file order, by the core.
pub fn calls(forms: &[Form]) -> Vec<Request> {
    let mut calls = Vec::new();
    for form in forms {
        match form {
            Form::Object(root) => {
                calls.push(request(code::CREATE_ROOT, &[0, root.driver, root.number, root.level]));
                root.calls_of_held(&mut calls);
            }
            &Form::Task { number, image, level, reads } => {
                calls.push(request(code::EXECUTE, &[0, image, number, level, reads]));
            }
        }
    }
    calls
}

impl Drawer {
    pub fn depth(&self) -> usize {
        1 + self.holds.iter().map(Drawer::depth).max().unwrap_or(0)
    }

    fn text(&self) -> String {
        let Drawer { number, driver, level, holds } = self;
        let inner: String = holds.iter().map(|drawer| format!("\n{}", drawer.text())).collect();
        format!("(object {number} driver {driver} level {level}{inner})")
    }

    /// "Before a nested create, the core and then the new object's driver each write
    /// to the container, through the container's driver."
    fn calls_of_held(&self, calls: &mut Vec<Request>) {
        let &Drawer { number: container, driver: through, .. } = self;
        for held in &self.holds {
            let &Drawer { number, driver, level, .. } = held;
            calls.push(request(code::WRITE, &[0, through, container]));
            calls.push(request(code::WRITE, &[driver, through, container]));
            calls.push(request(code::CREATE, &[0, driver, number, container, level]));
            held.calls_of_held(calls);
        }
    }
}

/// What is read, and the text behind it.
type Read<'a, T> = Option<(T, &'a [u8])>;

fn form(text: &[u8]) -> Read<'_, Form> {
    match drawer(text) {
        Some((root, behind)) => Some((Form::Object(root), behind)),
        None => task(text),
    }
}

fn drawer(text: &[u8]) -> Read<'_, Drawer> {
    let (number, text) = named("(object ", text)?;
    let (driver, text) = named(" driver ", text)?;
    let (level, mut rest) = named(" level ", text)?;
    let mut holds = Vec::new();
    while let Some(line) = rest.strip_prefix(b"\n") {
        let (held, behind) = drawer(line)?;
        holds.push(held);
        rest = behind;
    }
    let behind = rest.strip_prefix(b")")?;
    Some((Drawer { number, driver, level, holds }, behind))
}

fn task(text: &[u8]) -> Read<'_, Form> {
    let (number, text) = named("(task ", text)?;
    let (image, text) = named(" image ", text)?;
    let (level, text) = named(" level ", text)?;
    let (reads, text) = named(" reads ", text)?;
    let behind = text.strip_prefix(b")")?;
    Some((Form::Task { number, image, level, reads }, behind))
}

/// A word and the number behind it: "decimal, of at most three digits, without
/// leading zeros".
fn named<'a>(word: &str, text: &'a [u8]) -> Read<'a, u16> {
    let text = text.strip_prefix(word.as_bytes())?;
    let digits = text.iter().take_while(|byte| byte.is_ascii_digit()).count();
    let (number, behind) = text.split_at(digits);
    let value: u16 = std::str::from_utf8(number).ok()?.parse().ok()?;
    let plain = value.to_string().as_bytes() == number && value <= 999;
    plain.then_some((value, behind))
}
