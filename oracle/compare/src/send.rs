//! Sending: every kind and every length from 0 to one over the limit at both MTUs, each field at its limit and one over, then random sends to queues of each
//! capacity, with pops between them. After each call the answer, the counts and the whole order of the queue are compared.
use crate::chance::Chance;
use crate::mode::{agree, equal, Difference, Histories, Mode, Tally};
use model::Reading;
use plain::{Frame, Header, Transfer, MESSAGE, NO_NODE, REQUEST, RESPONSE};

pub struct Send;

#[derive(Clone, Debug)]
pub struct Setup {
    pub capacity: usize,
    pub mtu: usize,
    /// Sends done and refused before: a count that wraps is reached in no other way.
    pub counts: (u64, u64),
}

#[derive(Clone, Debug)]
pub enum Call {
    Send(Transfer, Vec<u8>),
    Pop(usize),
    SetMtu(usize),
}

const MESSAGE_HEADER: Header = Header { kind: MESSAGE, port: 256, priority: 4, source: 42, destination: NO_NODE };
const SERVICE_HEADER: Header = Header { kind: REQUEST, port: 430, priority: 1, source: 9, destination: 5 };

/// One header of each kind, an anonymous message among them.
pub const HEADERS: [Header; 4] = [MESSAGE_HEADER, Header { source: NO_NODE, ..MESSAGE_HEADER }, SERVICE_HEADER, Header { kind: RESPONSE, ..SERVICE_HEADER }];

/// Every length of one kind at one MTU, each send popped before the next.
fn every_length(seed: u64) -> impl Iterator<Item = (Setup, Vec<Call>)> {
    let cases = HEADERS.into_iter().flat_map(|header| [(header, 8), (header, 64)]);
    cases.enumerate().map(move |(at, (header, mtu))| {
        let chance = &mut Chance::new(seed, 1 << 32 | at as u64);
        let sends = (0..=1025).flat_map(|length| {
            let transfer = Transfer { header, transfer_id: length as u8 % 32, stamp: chance.next() as u32, loopback: chance.one_in(2) };
            [Call::Send(transfer, chance.bytes(length)), Call::Pop(usize::MAX)]
        });
        (Setup { capacity: 256, mtu, counts: (0, 0) }, sends.collect())
    })
}

/// A transfer with one field at its limit or over it.
fn at_limits(transfer: Transfer) -> Vec<Transfer> {
    let header = transfer.header;
    let ports = [0, 511, 512, 8191, 8192, u16::MAX].map(|port| Header { port, ..header });
    let priorities = [0, 7, 8, 255].map(|priority| Header { priority, ..header });
    let sources = [0, 127, 128, 254, 255].map(|source| Header { source, ..header });
    let destinations = [0, 127, 128, 254, 255].map(|destination| Header { destination, ..header });
    let kinds = [3, 255].map(|kind| Header { kind, ..header });
    let headers = ports.into_iter().chain(priorities).chain(sources).chain(destinations).chain(kinds);
    let ids = [0, 31, 32, 255].map(|transfer_id| Transfer { transfer_id, ..transfer });
    headers.map(|header| Transfer { header, ..transfer }).chain(ids).collect()
}

/// Each field of each kind, at each MTU and at some that are refused, with payloads on both sides of the limits that are judged after the fields.
fn every_limit() -> impl Iterator<Item = (Setup, Vec<Call>)> {
    let transfers = HEADERS.into_iter().flat_map(|header| at_limits(Transfer { header, transfer_id: 3, stamp: 7, loopback: true }));
    let sends = |transfer| [0, 7, 8, 63, 64, 1024, 1025].map(|length| Call::Send(transfer, vec![0x2A; length]));
    let calls: Vec<Call> = transfers.flat_map(|transfer| sends(transfer).into_iter().chain([Call::Pop(usize::MAX)])).collect();
    let mtus = [8, 64, 0, 1, 7, 9, 63, 65, 1 << 32, usize::MAX];
    mtus.into_iter().map(move |mtu| (Setup { capacity: 256, mtu, counts: (0, 0) }, calls.clone()))
}

fn header(chance: &mut Chance) -> Header {
    let mut header = chance.of(&HEADERS);
    header.priority = chance.below(8) as u8;
    if chance.one_in(2) {
        header.port = chance.below(512) as u16;
    }
    if chance.one_in(2) && header.source != NO_NODE {
        header.source = chance.below(128) as u8;
    }
    if chance.one_in(2) {
        header.destination = chance.below(128) as u8;
    }
    if chance.one_in(40) {
        match chance.below(5) {
            0 => header.priority = chance.next() as u8,
            1 => header.port = chance.next() as u16,
            2 => header.source = chance.next() as u8,
            3 => header.destination = chance.next() as u8,
            _ => header.kind = chance.next() as u8,
        }
    }
    header
}

fn call(chance: &mut Chance, capacity: u32) -> Call {
    match chance.below(20) {
        0 => Call::SetMtu(chance.of(&[8, 8, 64, 64, 64, 16])),
        1..=7 => Call::Pop(1 + chance.below(capacity / 4 + 2) as usize),
        _ => {
            let length = match chance.below(8) {
                0 => chance.below(1030),
                1 => chance.of(&[0, 6, 7, 8, 62, 63, 64, 1024]),
                2 => chance.below(130),
                _ => chance.below(16),
            };
            let id = if chance.one_in(100) { chance.next() as u8 } else { chance.below(32) as u8 };
            let transfer = Transfer { header: header(chance), transfer_id: id, stamp: chance.next() as u32, loopback: chance.one_in(2) };
            Call::Send(transfer, chance.bytes(length as usize))
        }
    }
}

impl Mode for Send {
    const NAME: &'static str = "send";
    type Setup = Setup;
    type Call = Call;

    fn histories(seed: u64) -> Histories<Setup, Call> {
        let random = (0..).map(move |history| {
            let chance = &mut Chance::new(seed, history);
            let capacity = chance.of(&[0, 1, 2, 3, 16, 16, 16, 255, 256]);
            let counts = (chance.of(&[0, 0, u64::MAX, u64::MAX - 3]), chance.of(&[0, 0, u64::MAX, u64::MAX - 3]));
            let setup = Setup { capacity, mtu: chance.of(&[8, 64]), counts };
            let count = 1 + chance.below(60);
            (setup, (0..count).map(|_| call(chance, capacity as u32)).collect())
        });
        Box::new(every_length(seed).chain(every_limit()).chain(random))
    }

    fn run(setup: &Setup, calls: &[Call], reading: Reading, tally: &mut Tally) -> Result<(), Difference> {
        let mut sides = Sides::new(setup, reading);
        for (at, call) in calls.iter().enumerate() {
            tally.inputs += 1;
            sides.answer(at, call, tally)?;
            sides.after(at)?;
        }
        Ok(())
    }
}

struct Sides {
    ours: ours::Line,
    queue: model::Queue,
    sender: model::Sender,
    original: Box<dyn original::door::Line>,
    /// Sends done and refused that the original was shown.
    shown: (u64, u64),
    orders: [Vec<Frame>; 2],
}

impl Sides {
    fn new(setup: &Setup, reading: Reading) -> Self {
        let mut original = original::door::line(setup.capacity);
        original.set_mtu(setup.mtu);
        Sides {
            ours: ours::Line::new(setup.capacity, setup.capacity, setup.mtu, setup.counts).expect("a capacity of at most 256"),
            queue: model::Queue::new(reading, setup.capacity),
            sender: model::Sender::new(reading, setup.mtu, setup.counts.0, setup.counts.1),
            original,
            shown: (0, 0),
            orders: [Vec::new(), Vec::new()],
        }
    }

    fn answer(&mut self, at: usize, call: &Call, tally: &mut Tally) -> Result<(), Difference> {
        match call {
            Call::Send(transfer, payload) => self.send(at, transfer, payload, tally),
            Call::Pop(count) => self.pop(at, *count),
            Call::SetMtu(mtu) => {
                self.ours.set_mtu(*mtu);
                self.sender.mtu = *mtu;
                self.original.set_mtu(*mtu);
                Ok(())
            }
        }
    }

    fn send(&mut self, at: usize, transfer: &Transfer, payload: &[u8], tally: &mut Tally) -> Result<(), Difference> {
        let before = self.queue.frames.len();
        let ours = self.ours.send(transfer, payload);
        let model = self.sender.send(&mut self.queue, transfer, payload);
        let original = match listed(model) {
            Some(what) => {
                tally.list(what);
                None
            }
            None => Some(self.original.send(transfer, payload)),
        };
        agree(at, "send", &ours, &model, original.as_ref())?;
        match original {
            Some(Ok(())) => self.shown.0 += 1,
            Some(Err(_)) => self.shown.1 += 1,
            None => {}
        }
        tally.see(if ours.is_ok() { "sends" } else { "refusals" });
        *tally.seen.entry("frames").or_default() += (self.queue.frames.len() - before) as u64;
        Ok(())
    }

    fn pop(&mut self, at: usize, count: usize) -> Result<(), Difference> {
        for _ in 0..count {
            let popped = self.ours.pop_frame();
            agree(at, "pop", &popped, &self.queue.pop_frame(), Some(&self.original.pop_frame()))?;
            if popped.is_none() {
                break;
            }
        }
        Ok(())
    }

    /// The counts, the room of a frame and the order of the queue.
    fn after(&mut self, at: usize) -> Result<(), Difference> {
        equal(at, "counts here", &self.ours.counts(), &(self.sender.done, self.sender.refused))?;
        equal(at, "the original's counts", &self.original.counts(), &self.shown)?;
        equal(at, "room here", &self.ours.room(), &self.sender.mtu.saturating_sub(1))?;
        if matches!(self.sender.mtu, 8 | 64) {
            equal(at, "the original's room", &self.original.room(), &(self.sender.mtu - 1))?;
        }
        let [here, there] = &mut self.orders;
        self.ours.order(here);
        self.original.order(there);
        equal(at, "the order here", here, &self.queue.frames)?;
        equal(at, "the original's order", there, &self.queue.frames)
    }
}

/// The refusals that the original has not: it sends what it can express, if there is room.
fn listed(answer: Result<(), u8>) -> Option<&'static str> {
    match answer {
        Err(9) => Some("an MTU that is neither 8 nor 64"),
        Err(10) => Some("a payload over 1,024 bytes"),
        Err(11) => Some("an anonymous payload over MTU - 1 bytes"),
        Err(12) => Some("a field over its limit, or a service with no source"),
        _ => None,
    }
}
