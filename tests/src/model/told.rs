//! The told word of the second paper: what the driver hears of a call.

use tupehiwo::ffi::{code, told};

/// "Read, write, move, both creates, execute, call and invoke."
const HEARD: [u16; 8] = [
    code::READ,
    code::WRITE,
    code::MOVE,
    code::CREATE,
    code::CREATE_ROOT,
    code::EXECUTE,
    code::CALL,
    code::INVOKE,
];

/// "Yes for verdict 0, no for all others."
pub fn word(code: u16, verdict: u8) -> u8 {
    match verdict {
        _ if !HEARD.contains(&code) => told::NO_WORD,
        0 => told::YES,
        _ => told::NO,
    }
}
