//! Random layouts and their texts: good ones, and such as nearly are.

use std::ops::Range;

pub use crate::model::written;
use crate::model::{Drawer, Form, LAYOUT_BYTES, LAYOUT_DEPTH, Number, at_or_below};
use crate::rng::Rng;
use tupehiwo::ffi::Order;

/// Numbers at the edges of what a layout may name.
pub const NUMBERS: [u16; 12] = [0, 1, 9, 10, 63, 64, 126, 127, 128, 255, 256, 999];

/// Bytes that the grammar knows, or nearly does.
pub const BYTES: &[u8] = b"()0123456789 \n\t\r\0-+/:otaOT#\x7F\xFF";

/// What a granted layout has made so far, under an order that passes.
struct Shelf<'a> {
    rng: &'a mut Rng,
    order: &'a Order,
    /// Numbers and levels.
    tasks: Vec<(Number, u16)>,
    objects: Vec<(Number, u16)>,
    /// What new things get.
    free: Vec<Number>,
}

/// A layout that is granted under an order that passes, with at most so many things.
pub fn granted(rng: &mut Rng, order: &Order, most: usize) -> Vec<Form> {
    let mut free: Vec<Number> = (1..128).collect();
    rng.shuffle(&mut free);
    free.truncate(most);
    let tasks = vec![(0, order.top)];
    let mut shelf = Shelf { rng, order, tasks, objects: vec![], free };
    let mut forms = Vec::new();
    while let Some(form) = shelf.form() {
        forms.push(form);
    }
    forms
}

impl Shelf<'_> {
    fn form(&mut self) -> Option<Form> {
        if self.objects.is_empty() || !self.rng.once_in(3) {
            let depth = 1 + self.rng.below(LAYOUT_DEPTH);
            return self.drawer(None, depth).map(Form::Object);
        }
        let (image, of_image) = self.rng.pick(&self.objects);
        let number = self.free.pop()?;
        let level = self.level(&[of_image]);
        let reads = self.level(&[level]);
        self.tasks.push((number, level));
        Some(Form::Task { number, image, level, reads })
    }

    /// An object in one of this level, or a root; so deep at most with what it holds.
    fn drawer(&mut self, within: Option<u16>, depth: usize) -> Option<Drawer> {
        let order = self.order;
        let may_write = |&(_, level): &(Number, u16)| {
            within.is_none_or(|container| at_or_below(order, container, level))
        };
        let drivers: Vec<(Number, u16)> = self.tasks.iter().copied().filter(may_write).collect();
        let (driver, of_driver) = self.rng.pick(&drivers);
        let number = self.free.pop()?;
        let level = self.level(&[of_driver, within.unwrap_or(order.top)]);
        self.objects.push((number, level));
        let mut holds = Vec::new();
        while depth > 1 && !self.rng.once_in(3) {
            let Some(held) = self.drawer(Some(level), depth - 1) else { break };
            holds.push(held);
        }
        Some(Drawer { number, driver, level, holds })
    }

    /// A level at or below all of these, which have the core's driver among them.
    fn level(&mut self, all: &[u16]) -> u16 {
        let order = self.order;
        let below = |level: &u16| all.iter().all(|&other| at_or_below(order, *level, other));
        let lower = (0..order.count).filter(below);
        self.rng.pick_any(lower).expect("a level is at or below itself")
    }
}

/// Objects in each other, so many levels of them, numbered by their place.
pub fn nested(levels: usize, number: impl Fn(usize) -> usize) -> Vec<u8> {
    let line = |place| format!("(object {} driver 0 level 0", number(place));
    let lines: Vec<String> = (0..levels).map(line).collect();
    format!("{}{}\n", lines.join("\n"), ")".repeat(levels)).into_bytes()
}

/// One object with so many in it, numbered by their place, its own being 0.
pub fn adjoining(count: usize, number: impl Fn(usize) -> usize) -> Vec<u8> {
    let line = |place| format!("(object {} driver 0 level 0", number(place));
    let inner: String = (1..=count).map(|place| format!("\n{})", line(place))).collect();
    format!("{}{inner})\n", line(0)).into_bytes()
}

/// Under Q: two tasks that drive, of which one writes to what the other drives.
pub const BEGUN: &str = "(object 10 driver 0 level 3)\n(task 1 image 10 level 3 reads 0)\n\
                         (task 127 image 10 level 3 reads 3)\n(object 20 driver 1 level 3\n\
                         (object 21 driver 127 level 2\n(object 22 driver 1 level 2)))\n";

/// What follows that, and the verdict.
const REFUSED: [(&str, u8); 9] = [
    ("(", 14),
    ("(object 1 driver 0 level 0) \n", 14),
    ("(object 30 driver 9 level 0)\n", 4),
    ("(object 30 driver 1 level 3\n(object 31 driver 10 level 0))\n", 4),
    ("(object 127 driver 1 level 0)\n", 5),
    ("(task 2 image 10 level 4 reads 0)\n", 9),
    ("(task 2 image 21 level 3 reads 0)\n", 11),
    ("(object 30 driver 1 level 2\n(object 31 driver 127 level 3))\n", 11),
    ("(object 30 driver 1 level 0\n(object 31 driver 1 level 999))\n", 9),
];

/// All of these with their beginning, and one that is too deep.
pub fn refused() -> Vec<(Vec<u8>, u8)> {
    let behind = |text: &[u8]| [BEGUN.as_bytes(), text].concat();
    let texts = REFUSED.iter().map(|&(text, verdict)| (behind(text.as_bytes()), verdict));
    texts.chain([(behind(&nested(9, |_| 30)), 15)]).collect()
}

/// The text of a layout, under an order that passes: granted, or with one number
/// changed, or too deep, or damaged, or long.
pub fn any(rng: &mut Rng, order: &Order) -> Vec<u8> {
    let most = rng.pick(&[0, 1, 2, 5, 10, 20, 60, 127]);
    let mut text = written(&granted(rng, order, most));
    match rng.below(16) {
        0..4 => {}
        4..10 => change_number(rng, order, &mut text),
        10 => text.extend(nested(8 + rng.below(3), |place| place)),
        11 => text.splice(0..0, nested(9 + rng.below(9), |place| place + 1)).for_each(drop),
        12 if rng.once_in(10) => lengthen(rng, &mut text),
        12.. => damage(rng, &mut text),
    }
    text
}

/// Where the numbers of a text stand, behind this word.
fn numbers_behind(text: &[u8], word: &str) -> Vec<Range<usize>> {
    let digit = |n: usize| text.get(n).is_some_and(u8::is_ascii_digit);
    let begins = |&n: &usize| digit(n) && text[..n].ends_with(word.as_bytes());
    let end = |begin: usize| (begin..).find(|&n| !digit(n)).expect("a text ends");
    (0..text.len()).filter(begins).map(|begin| begin..end(begin)).collect()
}

/// Another number in the place of one, often one that stands elsewhere in the text:
/// it stays in the grammar.
pub fn change_number(rng: &mut Rng, order: &Order, text: &mut Vec<u8>) {
    let all = numbers_behind(text, " ");
    let Some(place) = rng.pick_any(all.iter()) else { return };
    let number = match rng.below(8) {
        0 => rng.pick(&NUMBERS).to_string(),
        1 => rng.pick(&[128, 255, 256, 999]).to_string(),
        2 => (order.count + rng.below(2) as u16).to_string(),
        3 => rng.below(1000).to_string(),
        4 => rng.below(20).to_string(),
        _ => {
            let other = all[rng.below(all.len())].clone();
            String::from_utf8_lossy(&text[other]).into_owned()
        }
    };
    text.splice(place.clone(), number.into_bytes());
}

/// Another task as the driver of an object, which may be too low for it.
pub fn change_driver(rng: &mut Rng, text: &mut Vec<u8>) {
    let (drivers, tasks) = (numbers_behind(text, "driver "), numbers_behind(text, "task "));
    let picked = rng.pick_any(drivers.iter()).zip(rng.pick_any(tasks.iter()));
    if let Some((driver, task)) = picked {
        let number = text[task.clone()].to_vec();
        text.splice(driver.clone(), number);
    }
}

/// One byte replaced, put in or left out, perhaps with all that follows.
pub fn damage(rng: &mut Rng, text: &mut Vec<u8>) {
    let byte = if rng.once_in(5) { rng.bits() as u8 } else { rng.pick(BYTES) };
    let place = rng.below(text.len() + 1);
    match text.get_mut(place) {
        Some(_) if rng.once_in(8) => text.truncate(place),
        Some(old) if rng.once_in(2) => *old = byte,
        Some(_) if rng.once_in(2) => drop(text.remove(place)),
        _ => text.insert(place, byte),
    }
}

/// Its first line again and again, to about the longest text.
fn lengthen(rng: &mut Rng, text: &mut Vec<u8>) {
    let line = b"(object 1 driver 0 level 0)\n";
    let length = LAYOUT_BYTES - 40 + rng.below(80);
    while text.len() < length {
        text.extend(line);
    }
    if rng.once_in(2) {
        text.truncate(length);
    }
}
