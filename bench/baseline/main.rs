//! A plain simulator of the same model, to measure the proved program against: `rustc -O`, no crates, no proofs.
//!
//! usage: baseline [--seed N] [--show trace|links|timers] < scenario.toml > table.csv
//!
//! One binary heap has all pending events, and the least is taken until none is left before the end. Each member has
//! tables by name, ordered maps as in the proved program; distances, and the ways of each sender's packets, are worked
//! out once, before the run. A timer that was set anew or has ended stays in the heap, and is passed over when it comes
//! up. All rows are kept, and written as text after the run.
//!
//! It reads a part of TOML: comments, whole decimal numbers, strings in double quotes without escapes, arrays, inline
//! tables and `[[name]]`, which is what examples/ and the scenarios of the scripts beside it consist of. docs/FORMATS.md
//! has each version of the format. A scenario that it would not
//! simulate as it says stops it with a message; it tells no refusals.

mod events;
mod losses;
mod member;
mod network;
mod packets;
mod recovery;
mod scenario;
mod simulation;
mod tables;
mod timers;
mod toml;

use std::io::{self, Read, Write};

use scenario::Scenario;
use simulation::Simulation;
use toml::Reader;

fn main() {
    let (mut seed, mut show) = (0, "trace".to_string());
    let mut words = std::env::args().skip(1);
    while let Some(word) = words.next() {
        let value = words.next().expect("a value after each option");
        match word.as_str() {
            "--seed" => seed = value.parse().expect("a seed"),
            "--show" => show = value,
            _ => panic!("no option: {word}"),
        }
    }
    let table = match show.as_str() {
        "trace" => tables::trace,
        "links" => tables::links,
        "timers" => tables::timers,
        other => panic!("no table: {other}"),
    };
    let mut text = Vec::new();
    io::stdin().lock().read_to_end(&mut text).expect("standard input");
    let scenario = Scenario::of(&Reader::new(&text).document());
    let mut simulation = Simulation::new(scenario, seed);
    simulation.run();
    io::stdout().lock().write_all(&table(&simulation)).expect("standard output");
}
