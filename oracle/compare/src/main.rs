//! The original, this project and a model of document 01 on the same inputs, in one process. Built and run by tools/original.
//!
//!   compare share | long       all modes, a bounded share of them or as many inputs as are written down
//!   compare readings [few]     each wrong reading of the model must be found
//!   compare answers FILE       writes a list of calls with the original's answers
//!   compare MODE SEED COUNT    one mode
mod answers;
mod bus;
mod chance;
mod exhaustive;
mod known;
mod making;
mod mode;
mod plans;
mod queue;
mod readings;
mod receive;
mod send;
mod tracker;

use exhaustive::Exhaustive;
use making::Making;
use mode::report;
use plans::Plans;
use queue::{Queue, Short};
use receive::Receive;
use send::Send;
use std::process::ExitCode;
use tracker::Tracker;

/// A mode by its name.
fn one(mode: &str, seed: u64, count: u64) -> bool {
    match mode {
        "plans" => report::<Plans>(seed, count),
        "tracker" => report::<Tracker>(seed, count),
        "making" => report::<Making>(seed, count),
        "queue" => report::<Queue>(seed, count),
        "queue-short" => report::<Short>(seed, count),
        "send" => report::<Send>(seed, count),
        "receive" => report::<Receive>(seed, count),
        "exhaustive" => report::<Exhaustive>(seed, count),
        other => panic!("no mode {other}"),
    }
}

/// Calls in each mode: of a share, and of a long run. A checked build's seeds are others.
const RUNS: [(&str, u64, u64); 8] = [
    ("plans", u64::MAX, u64::MAX),
    ("tracker", 200_000, 5_000_000),
    ("making", 20_000, 1_000_000),
    ("queue", 150_000, 10_000_000),
    ("queue-short", u64::MAX, u64::MAX),
    ("send", 100_000, 36_000_000),
    ("receive", 4_000_000, 110_000_000),
    ("exhaustive", u64::MAX, u64::MAX),
];

fn all(long: bool) -> bool {
    let seed = if cfg!(debug_assertions) { 2 } else { 1 };
    let mut agree = known::all();
    for (mode, share, whole) in RUNS {
        agree &= one(mode, seed, if long { whole } else { share });
    }
    agree
}

fn main() -> ExitCode {
    // Where the original stops is told by the answer.
    std::panic::set_hook(Box::new(|_| {}));
    let words: Vec<String> = std::env::args().skip(1).collect();
    let words: Vec<&str> = words.iter().map(String::as_str).collect();
    let right = match words[..] {
        ["share"] => all(false),
        ["long"] => all(true),
        ["readings"] => readings::all(readings::WHOLE),
        ["readings", "few"] => readings::all(readings::FEW),
        ["answers", file] => answers::write(file).is_ok(),
        [mode, seed, count] => one(mode, seed.parse().expect("a seed"), count.parse().expect("a count")),
        _ => panic!("compare share | long | readings [few] | answers FILE | MODE SEED COUNT"),
    };
    if right {
        ExitCode::SUCCESS
    } else {
        ExitCode::FAILURE
    }
}
