//! Receiving: the same frames to both doors of the original, to this project and to the model. After each frame the answer, the place of a delivery's bytes,
//! the slot and the store are compared: the slot of the frame's source on all sides, every other slot here with what it was before, the source's part of the
//! store with the model's, and the whole store where it is small, else each 64th frame and at the end.
use crate::bus;
use crate::mode::{agree, equal, Difference, Histories, Mode, Tally};
use model::Reading;
use ours::Words;
use plain::{Answer, Asked, Delivery, Frame, Lying, Slot};
use std::panic::{catch_unwind, AssertUnwindSafe};

pub struct Receive;

#[derive(Clone, Debug)]
pub struct Setup {
    pub asked: Asked,
    /// Bytes that the store lacks.
    pub lacking: usize,
}

impl Mode for Receive {
    const NAME: &'static str = "receive";
    type Setup = Setup;
    type Call = Frame;

    fn histories(seed: u64) -> Histories<Setup, Frame> {
        Box::new((0..).map(move |history| bus::history(seed, history)))
    }

    fn run(setup: &Setup, frames: &[Frame], reading: Reading, tally: &mut Tally) -> Result<(), Difference> {
        run(setup, frames, reading, tally)
    }
}

pub fn run(setup: &Setup, frames: &[Frame], reading: Reading, tally: &mut Tally) -> Result<(), Difference> {
    let mut sides = Sides::new(setup, reading);
    for (at, frame) in frames.iter().enumerate() {
        tally.inputs += 1;
        sides.answer(at, frame, tally)?;
        sides.slot(at, frame)?;
        sides.part(at, frame)?;
        if sides.small_store || at % 64 == 63 || at + 1 == frames.len() {
            equal(at, "whether the whole store here is the model's", &(sides.ours.store() == sides.model.store), &true)?;
        }
    }
    Ok(())
}

/// Up to here the whole store is compared after each frame.
const SMALL: usize = 8192;

struct Sides {
    asked: Asked,
    ours: ours::Receiver,
    model: model::Receiver,
    original: Option<Original>,
    /// The slots' words before the frame.
    before: Words,
    small_store: bool,
}

impl Sides {
    fn new(setup: &Setup, reading: Reading) -> Self {
        let asked = setup.asked;
        let store = vec![0xAA; (128 * asked.extent).saturating_sub(setup.lacking)];
        let lacks = store.len() < 128 * asked.extent;
        let small_store = store.len() <= SMALL;
        let Ok(ours) = ours::Receiver::new(&asked, store.clone()) else { panic!("no subscription") };
        let before = *ours.words();
        let original = (!lacks).then(|| Original::new(&asked));
        Sides { asked, ours, model: model::Receiver::new(reading, &asked, store), original, before, small_store }
    }

    fn answer(&mut self, at: usize, frame: &Frame, tally: &mut Tally) -> Result<(), Difference> {
        let held = self.model.slots[source(frame)];
        let (answer, lying) = self.ours.accept(frame);
        let (right, right_lying) = self.model.accept(frame);
        let asked = self.ask(frame, &held, &right, tally);
        agree(at, "answer", &answer, &right, asked.as_ref())?;
        equal(at, "where the bytes lie here", &lying, &right_lying)?;
        if let Some(original) = &mut self.original {
            original.counts_agree(at)?;
        }
        tally.see(kind(&answer, lying));
        Ok(())
    }

    /// What the original says, where its types hold the frame and it did not stop.
    fn ask(&mut self, frame: &Frame, held: &Slot, right: &Answer, tally: &mut Tally) -> Option<Answer> {
        let Some(original) = &mut self.original else {
            tally.list(if *right == Answer::Refused(7) { "a store that is too small" } else { "a frame after the original stopped" });
            return None;
        };
        let Ok(made) = original::door::made(frame) else {
            tally.list("a frame that the original's types do not hold");
            return None;
        };
        let said = catch_unwind(AssertUnwindSafe(|| original.accept(&self.asked, frame, made, right, tally)));
        match said {
            Ok(said) => Some(said),
            Err(_) if cfg!(debug_assertions) && short(held, frame) && *right == Answer::Refused(6) => {
                tally.list("a transfer of fewer than two bytes, which stops a checked build");
                self.original = None;
                None
            }
            // No side answers so.
            Err(_) => Some(Answer::Refused(0)),
        }
    }

    /// The source's slot on all sides; the others here are as they were.
    fn slot(&mut self, at: usize, frame: &Frame) -> Result<(), Difference> {
        let source = source(frame);
        let right = self.model.slots[source];
        let (now, before) = (self.ours.words(), &mut self.before);
        if now[source] != ours::words(&right.counted_to(self.asked.extent)) {
            equal(at, "the slot here", &ours::slot(&now[source]), &right.counted_to(self.asked.extent))?;
            equal(at, "the slot's words here", &now[source], &ours::words(&right.counted_to(self.asked.extent)))?;
        }
        before[source] = now[source];
        if now != before {
            return Err(Difference { at, what: "a frame changed the slot of another source here".into() });
        }
        let Some(original) = &mut self.original else { return Ok(()) };
        let kept = right.session.map_or(0, |session| session.total.min(self.asked.extent));
        let stored = &self.model.store[source * self.asked.extent..][..kept];
        for (whose, (slot, bytes)) in [("subscription", original.subscription.probe(source as u8)), ("receiver", original.whole.probe(source as u8))] {
            if (slot, bytes) != (right, stored) {
                equal(at, &format!("the slot of the original's {whose}"), &(slot, bytes), &(right, stored))?;
            }
        }
        Ok(())
    }

    fn part(&self, at: usize, frame: &Frame) -> Result<(), Difference> {
        let extent = self.asked.extent;
        let range = source(frame) * extent..(source(frame) + 1) * extent;
        equal(at, "the source's part of the store here", &self.ours.store().get(range.clone()), &self.model.store.get(range))
    }
}

fn source(frame: &Frame) -> usize {
    (frame.id & 127) as usize
}

/// Whether the frame ends a session that then has fewer than two bytes.
fn short(held: &Slot, frame: &Frame) -> bool {
    held.session.map_or(0, |session| session.total) + frame.bytes().len() - 1 < 2
}

fn kind(answer: &Answer, lying: Lying) -> &'static str {
    match (answer, lying) {
        (Answer::Nothing, _) => "nothing",
        (Answer::NotOurs, _) => "not ours",
        (Answer::Delivered(d), _) if d.header.source == plain::NO_NODE => "anonymous deliveries",
        (Answer::Delivered(_), Lying::InStore { .. }) => "deliveries of several frames",
        (Answer::Delivered(_), _) => "deliveries of one frame",
        (Answer::Refused(number), _) => ["", "refusal 1", "refusal 2", "refusal 3", "refusal 4", "refusal 5", "refusal 6", "refusal 7"][usize::from(*number)],
    }
}

/// Both doors of the original.
struct Original {
    subscription: original::rx_door::Receiver,
    whole: original::rx_door::Whole,
    /// Transfers and errors that the whole receiver should have counted, and what it said otherwise than the subscription.
    counts: (u64, u64),
    other: Option<String>,
}

impl Original {
    fn new(asked: &Asked) -> Self {
        let subscription = original::rx_door::Receiver::new(asked).expect("within the limits");
        let whole = original::rx_door::Whole::new(asked).expect("within the limits");
        Original { subscription, whole, counts: (0, 0), other: None }
    }

    /// The subscription's answer; the whole receiver is asked too, and must deliver the same or count an error where the subscription refuses.
    fn accept(&mut self, asked: &Asked, frame: &Frame, made: original::Frame, right: &Answer, tally: &mut Tally) -> Answer {
        let expected = match listed(asked, frame) {
            Some(LOOPED) => {
                tally.list(LOOPED);
                return self.subscription.accept(made);
            }
            Some(what) => {
                tally.list(what);
                &Answer::Refused(0)
            }
            None => right,
        };
        let said = self.whole.accept(made.clone());
        match expected {
            Answer::Delivered(_) => self.counts.0 += 1,
            Answer::Refused(_) => self.counts.1 += 1,
            Answer::Nothing | Answer::NotOurs => {}
        }
        if said.as_ref() != delivery(expected) {
            self.other = Some(format!("the original's receiver says {said:?}, model {expected:?}"));
        }
        self.subscription.accept(made)
    }

    fn counts_agree(&mut self, at: usize) -> Result<(), Difference> {
        match self.other.take() {
            Some(what) => Err(Difference { at, what }),
            None => equal(at, "transfers and errors that the original's receiver counted", &self.whole.counts(), &self.counts),
        }
    }
}

fn delivery(answer: &Answer) -> Option<&Delivery> {
    match answer {
        Answer::Delivered(delivery) => Some(delivery),
        _ => None,
    }
}

const UNMARKED: &str = "an anonymous frame without start, end and toggle";
const LOOPED: &str = "a service frame that is a loopback, for another node";

/// Where the original's whole receiver is known to do otherwise: it counts an error for an anonymous frame without all three marks, and takes a loopback frame
/// of a service for another node, which it is therefore not shown.
fn listed(asked: &Asked, frame: &Frame) -> Option<&'static str> {
    let bit = |at: u32| frame.id >> at & 1 == 1;
    let last = frame.bytes().last()?;
    if bit(23) || !bit(25) && bit(7) {
        return None;
    }
    if !bit(25) {
        return (bit(24) && *last < 0xE0).then_some(UNMARKED);
    }
    let elsewhere = asked.kind != plain::MESSAGE && frame.id >> 7 & 127 != u32::from(asked.node);
    (frame.loopback && elsewhere).then_some(LOOPED)
}
