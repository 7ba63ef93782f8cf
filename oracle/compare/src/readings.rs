//! That the comparison can find an error: each wrong reading of the model must be seen.
use crate::exhaustive::Exhaustive;
use crate::making::Making;
use crate::mode::{run, Mode, Tally};
use crate::plans::Plans;
use crate::queue::{Queue, Short};
use crate::receive::Receive;
use crate::send::Send;
use crate::tracker::Tracker;
use model::{Reading, WRONG};

/// The most calls that a mode may take to find a reading.
pub const FEW: u64 = 100_000;
pub const WHOLE: u64 = 20_000_000;

const SEED: u64 = 1;

/// After how many calls the mode found it.
fn after<M: Mode>(reading: Reading, most: u64) -> Option<u64> {
    let mut tally = Tally::default();
    run::<M>(SEED, most, reading, &mut tally).map(|_| tally.inputs)
}

fn by(mode: &str, reading: Reading, most: u64) -> Option<u64> {
    match mode {
        "plans" => after::<Plans>(reading, most),
        "tracker" => after::<Tracker>(reading, most),
        "making" => after::<Making>(reading, most),
        "queue" => after::<Queue>(reading, most),
        "queue-short" => after::<Short>(reading, most),
        "send" => after::<Send>(reading, most),
        "receive" => after::<Receive>(reading, most),
        "exhaustive" => after::<Exhaustive>(reading, most),
        other => panic!("no mode {other}"),
    }
}

/// Whether each is found; prints the table.
pub fn all(most: u64) -> bool {
    let mut lost = 0;
    for (reading, modes, words) in WRONG {
        let found: Vec<String> = modes.split(' ').filter_map(|mode| by(mode, *reading, most).map(|n| format!("{mode} after {n}"))).collect();
        let said = if found.is_empty() { "NOT FOUND".into() } else { found.join(", ") };
        println!("wrong reading, {words}: {said}");
        lost += usize::from(found.is_empty());
    }
    println!("wrong readings, seed {SEED}, at most {most} calls in a mode: {} of {} found", WRONG.len() - lost, WRONG.len());
    lost == 0
}
