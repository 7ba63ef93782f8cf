//! This project's speed against the original's, in one run: the original once over a CRC by a table and once over one that goes bit by bit, this project through
//! its static library. The outputs are compared first. Each number is the median over rounds of the time here divided by the original's, all three measured in
//! turn within each round. Built and run by tools/measure.
//!
//!   speed                    the table of times
//!   speed cases              the names of the cases
//!   speed CASE SIDE TIMES    one case by one side (ours, table, bitwise), for a count of instructions
mod cases;

use cases::{Case, Work};
use std::hint::black_box;
use std::time::Instant;

const ROUNDS: usize = 41;
/// How long one side works within a round, about.
const NANOSECONDS: f64 = 2_000_000.0;

fn nanoseconds(times: usize, work: &mut Work) -> f64 {
    let begun = Instant::now();
    for _ in 0..times {
        black_box(work());
    }
    begun.elapsed().as_nanos() as f64 / times as f64
}

fn median(mut numbers: Vec<f64>) -> f64 {
    numbers.sort_by(f64::total_cmp);
    numbers[numbers.len() / 2]
}

fn measure(case: &mut Case) {
    // Enough calls that the clock does not matter.
    let times = (NANOSECONDS / nanoseconds(20, &mut case.sides[1])).ceil() as usize;
    let rounds: Vec<[f64; 3]> = (0..ROUNDS).map(|_| case.sides.each_mut().map(|side| nanoseconds(times, side))).collect();
    let ratio = |side: usize| median(rounds.iter().map(|round| round[0] / round[side]).collect());
    let here = median(rounds.iter().map(|round| round[0]).collect()) / case.parts as f64;
    println!("| {} | {:.2} | {:.2} | {here:.0} |", case.name, ratio(1), ratio(2));
}

fn count(name: &str, side: &str, times: usize) {
    let at = ["ours", "table", "bitwise"].iter().position(|known| *known == side).expect("ours, table or bitwise");
    let mut case = cases::all().into_iter().find(|case| case.name == name).expect("a case");
    for _ in 0..times {
        black_box(case.sides[at]());
    }
    println!("{}", times * case.parts);
}

fn main() {
    let words: Vec<String> = std::env::args().skip(1).collect();
    match words.iter().map(String::as_str).collect::<Vec<_>>()[..] {
        [] => {
            let mut cases = cases::all();
            println!("outputs equal in {} cases; {ROUNDS} rounds", cases.len());
            println!("| case | of the original, CRC by table | of the original, CRC bit by bit | ns here |");
            println!("|---|---|---|---|");
            cases.iter_mut().for_each(measure);
        }
        ["cases"] => cases::all().iter().for_each(|case| println!("{}", case.name)),
        [name, side, times] => count(name, side, times.parse().expect("a number")),
        _ => panic!("speed [cases | CASE SIDE TIMES]"),
    }
}
