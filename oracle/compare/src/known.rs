//! The differences of docs/DIFFERENCES.md that the original can be asked about, each at its smallest input: what it does and what this project does.
use original::door;
use original::rx_door::{Receiver, Whole};
use plain::{Answer, Asked, Frame, Header, Transfer, MESSAGE, NO_NODE, REQUEST};
use std::panic::{catch_unwind, AssertUnwindSafe};

const MESSAGES: Asked = Asked { kind: MESSAGE, port: 0, node: 0, timeout: 0, extent: 0 };
const REQUESTS: Asked = Asked { kind: REQUEST, ..MESSAGES };
const FROM_NOBODY: Header = Header { kind: MESSAGE, port: 0, priority: 0, source: NO_NODE, destination: NO_NODE };

/// Prints both answers, and says whether they are the listed ones.
fn row(what: &str, original: String, here: String, listed: (&str, &str)) -> bool {
    let right = (original.as_str(), here.as_str()) == listed;
    println!("difference, {what}: original {original}; here {here}{}", if right { "" } else { " NOT AS LISTED" });
    right
}

fn plan_row(what: &str, payload: usize, mtu: usize, listed: (&str, &str)) -> bool {
    let here = ours::plan(payload, mtu).expect_err("a refusal");
    row(what, format!("{} frames", door::plan(payload, mtu).frames), format!("refusal {here}"), listed)
}

fn send_row(what: &str, header: Header, length: usize, listed: (&str, &str)) -> bool {
    let transfer = Transfer { header, transfer_id: 0, stamp: 0, loopback: false };
    let (payload, mut original) = (vec![0; length], door::line(256));
    let mut here = ours::Line::new(256, 256, 8, (0, 0)).expect("a queue");
    let said = original.send(&transfer, &payload).map(|()| original.len());
    let refusal = here.send(&transfer, &payload).expect_err("a refusal");
    row(what, format!("{} frames", said.expect("sent")), format!("refusal {refusal}, {} frames", here.len()), listed)
}

/// The last answer of the original's subscription, of its whole receiver and here.
fn receive_row(what: &str, asked: &Asked, frames: &[Frame], listed: (&str, &str)) -> bool {
    let mut subscription = Receiver::new(asked).expect("a subscription");
    let mut whole = Whole::new(asked).expect("a receiver");
    let Ok(mut here) = ours::Receiver::new(asked, Vec::new()) else { panic!("no subscription") };
    let (mut said, mut answer) = (String::new(), Answer::Nothing);
    for frame in frames {
        let made = door::made(frame).expect("a frame");
        let by_subscription = catch_unwind(AssertUnwindSafe(|| subscription.accept(made.clone())));
        let by_whole = catch_unwind(AssertUnwindSafe(|| drop(whole.accept(made))));
        let stops = by_whole.is_err().then_some("stops");
        let first = by_subscription.map_or("stops".into(), |answer| words(&answer));
        said = format!("{first}, its receiver {}", stops.map_or(format!("{:?}", whole.counts()), String::from));
        answer = here.accept(frame).0;
    }
    row(what, said, words(&answer), listed)
}

fn words(answer: &Answer) -> String {
    match answer {
        Answer::Delivered(delivery) => format!("delivers {} bytes", delivery.bytes.len()),
        other => format!("{other:?}"),
    }
}

fn makings() -> bool {
    let extent = Asked { extent: 1025, ..MESSAGES };
    let made = |yes: bool| String::from(if yes { "made" } else { "refused" });
    let here = ours::Receiver::new(&extent, Vec::new()).map_err(|(number, _)| number).err();
    let queue = ours::Line::new(257, 257, 8, (0, 0)).err();
    row("an extent of 1,025", made(Receiver::new(&extent).is_ok()), format!("{here:?}"), ("made", "Some(8)"))
        & row("a queue of 257 frames", made(door::line(257).try_reserve(257).is_ok()), format!("{queue:?}"), ("made", "Some(14)"))
}

/// Of a receiver the counts of transfers and of errors are told.
pub fn all() -> bool {
    let frame = |id, loopback, bytes: &[u8]| Frame::new(0, id, loopback, bytes);
    let stops = ("stops, its receiver stops", "refusal 6");
    let wraps = ("refusal 6, its receiver (0, 1)", "refusal 6");
    let short = [frame(0, false, &[0xA0]), frame(0, false, &[0x40])];
    plan_row("a plan of 1,025 bytes at MTU 8", 1025, 8, ("147 frames", "refusal 10"))
        & plan_row("a plan of 0 bytes at MTU 16", 0, 16, ("1 frames", "refusal 9"))
        & send_row("1,025 bytes sent at MTU 8", Header { source: 0, ..FROM_NOBODY }, 1025, ("147 frames", "refusal 10, 0 frames"))
        & send_row("8 anonymous bytes sent at MTU 8", FROM_NOBODY, 8, ("2 frames", "refusal 11, 0 frames"))
        & makings()
        & receive_row("frames A0 and 40", &MESSAGES, &short, if cfg!(debug_assertions) { stops } else { wraps })
        & receive_row("an anonymous frame 00", &MESSAGES, &[frame(1 << 24, false, &[0])], ("delivers 0 bytes, its receiver (0, 1)", "delivers 0 bytes"))
        & receive_row("a looped back request for node 1", &REQUESTS, &[frame(0x0300_0080, true, &[0xE0])], ("not ours, its receiver (1, 0)", "not ours"))
}
