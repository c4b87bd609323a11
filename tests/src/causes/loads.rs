//! Why a load got its verdict: for its text, or for the call of its layout that was
//! refused.

use super::{Cause, Made, Reason, events, memory, numbers};
use crate::model::{Drawer, Ended, Form, Lengths, State, read_layout};
use crate::prefix;
use tupehiwo::ffi::{Order, code};

/// What a granted layout has.
const LAYOUTS: [&str; 4] = ["empty", "of roots and tasks", "objects in objects", "eight deep"];
const NINTH: Reason = ("object", "at a ninth level");

/// A load as it was made, and the call of its layout that was refused, if one was.
pub struct Loaded<'a> {
    pub lengths: Lengths,
    pub order: &'a Order,
    pub text: &'a [u8],
    pub ended: Ended,
}

impl Loaded<'_> {
    /// The single cause of its verdict, if there is one.
    pub fn cause(&self, verdict: u8) -> Option<Cause> {
        if let Some((state, request)) = &self.ended {
            let made = Made { state, lengths: self.lengths, order: self.order, request: *request };
            return made.cause(verdict).map(|cause| Cause { loading: true, ..cause });
        }
        let reason = match verdict {
            0 => ("layout", layout(self.text)?),
            2 => {
                let core = State::started(self.order.top & 255);
                memory::cause(&core, self.lengths, self.order, true)?
            }
            3 => memory::order_cause(self.order)?,
            14 => ("text", prefix::find(self.text).fault?),
            _ => NINTH,
        };
        Some(Cause { verdict, call: None, loading: true, reason })
    }
}

fn layout(text: &[u8]) -> Option<&'static str> {
    let depth = |form: &Form| match form {
        Form::Object(root) => Drawer::depth(root),
        Form::Task { .. } => 1,
    };
    let deepest = read_layout(text).ok()?.iter().map(depth).max().unwrap_or(0);
    Some(
        LAYOUTS[match deepest {
            0 | 1 => deepest,
            8.. => 3,
            _ => 2,
        }],
    )
}

/// Every cause of a load's verdict.
pub fn all() -> Vec<Cause> {
    let texts = prefix::FAULTS.map(|fault| (14, None, ("text", fault)));
    let layouts = LAYOUTS.map(|layout| (0, None, ("layout", layout)));
    let lengths = memory::all().into_iter().filter(|(what, _)| *what == "length");
    let orders = memory::all_of_orders().into_iter().filter(|(starting, _)| *starting);
    let calls = numbers::all().into_iter().chain(events::all()).filter(can_end);
    let mut all = vec![(15, None, NINTH)];
    all.extend(texts.into_iter().chain(layouts));
    all.extend(lengths.map(|reason| (2, None, reason)));
    all.extend(orders.map(|(_, reason)| (3, None, reason)));
    all.extend(calls.map(|(verdict, code, reason)| (verdict, Some(code.into()), reason)));
    let cause = |(verdict, call, reason)| Cause { verdict, call, loading: true, reason };
    all.into_iter().map(cause).collect()
}

/// Whether a call of a layout can be refused so. The core is the creator and is at
/// the top; its own write is always granted, since an object is at or below its
/// driver; a new object's driver has written before the create; no number has more
/// than three digits.
fn can_end(&(verdict, code, (name, how)): &(u8, u16, Reason)) -> bool {
    let named = match code {
        code::WRITE => name == "task",
        code::CREATE => name != "driver" && (name != "container" || verdict == 11),
        code::CREATE_ROOT | code::EXECUTE => true,
        _ => false,
    };
    [4, 5, 9, 11].contains(&verdict) && named && name != "creator" && how != "65,535"
}
