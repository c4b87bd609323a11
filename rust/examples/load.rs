//! Begin with the layout in a file, find a captured task, read the list, and see whom to ring.
//!
//! ```text
//! cargo run --example load -- ../examples/instrument.layout
//! ```
//!
//! There are three levels: 0 for what a customer brought, 1 for what the shop has
//! checked, 2 for what came from the factory.

use std::process::ExitCode;
use std::{env, fs};

use tupehiwo::{Monitor, Order, Tally, Verdict, layout};

/// Each level is at or below the next.
const ORDER: Order = Order::new(2, [0b111, 0b110, 0b100]);

/// The numbers of the file.
const FILE_SERVER: u16 = 1;
const FRONT_PANEL: u16 = 2;
const SPECTRUM: u16 = 3;
const POWER: u16 = 4;
const MODULE: u16 = 5;
const MIXER_TABLE: u16 = 23;
const SCREEN: u16 = 26;
const MODULE_IMAGE: u16 = 28;

fn say(what: &str, verdict: Verdict) {
    println!("{what:<44} {:>2} {verdict}", verdict as u8);
}

/// What happens in the shop, from the load to the report.
fn story(monitor: &mut Monitor) {
    say("the module writes its own file", monitor.write(MODULE, FILE_SERVER, MODULE_IMAGE));
    say("the module writes the mixer's table", monitor.write(MODULE, FILE_SERVER, MIXER_TABLE));
    say("the spectrum task writes the screen's file", monitor.write(SPECTRUM, FRONT_PANEL, SCREEN));
    say("the spectrum task calls the module", monitor.call(SPECTRUM, MODULE));
    say("the power task may call it: it reads low", monitor.call(POWER, MODULE));
    say("the module is marked", monitor.mark(MODULE));
    println!("spread in {} round", monitor.spread().rounds);
    let marked: Vec<String> = monitor.report().marked().map(|n| n.to_string()).collect();
    println!("marked {}", marked.join(" "));
    for (task, Tally { granted, slipped, refused }) in monitor.refused() {
        println!("task {task}: {granted} granted, {slipped} slipped, {refused} refused");
    }
}

fn main() -> ExitCode {
    let Some(text) = env::args().nth(1).and_then(|file| fs::read(file).ok()) else {
        eprintln!("load FILE: the file of a layout");
        return ExitCode::from(2);
    };
    let mut monitor = Monitor::new();
    let verdict = monitor.load(ORDER, &text);
    say("load", verdict);
    match layout::check(&text) {
        Err(fault) => println!("{fault}"),
        Ok(()) if verdict == Verdict::Granted => story(&mut monitor),
        Ok(()) => println!("a form that the rules refuse"),
    }
    ExitCode::from(u8::from(verdict != Verdict::Granted))
}
