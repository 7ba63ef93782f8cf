//! This project through the doors of its static library, with the memory that each call is lent. Beside the answers, what the header promises of every answer
//! is asserted: fields that an answer has not are 0, and nothing is written outside of what is lent.
#[path = "../../../rust/dolomisc/src/doors.rs"]
pub mod doors;
mod line;
mod receive;
mod tracker;

pub use line::{plan, Line};
pub use receive::{slot, words, Receiver, Words};
pub use tracker::Tracker;

/// A flag that goes in may be any byte.
#[inline]
fn flag(yes: bool, any: u32) -> u8 {
    if yes {
        any as u8 | 1
    } else {
        0
    }
}

#[inline]
fn marks(frame: &plain::Frame) -> doors::Marks {
    doors::Marks { stamp: frame.stamp, id: frame.id, loopback: flag(frame.loopback, frame.stamp) }
}

#[inline]
fn flat(header: &plain::Header) -> doors::Header {
    doors::Header { port: header.port, kind: header.kind, priority: header.priority, source: header.source, destination: header.destination }
}

const REFUSED: u8 = 4;

/// Done, or the number of the refusal.
#[inline]
fn result(what: u8, refusal: u8) -> Result<(), u8> {
    match (what, refusal) {
        (doors::DONE, 0) => Ok(()),
        (REFUSED, number) if number != 0 => Err(number),
        other => panic!("an answer that there is not: {other:?}"),
    }
}
