//! Writes a list of calls with the original's answers, to be replayed where there is no Rust. Only calls that the original's types can express are in it.
//!
//! THE FORMAT. All numbers are little-endian. The file begins with the number of records (4 bytes) and 1, the number of this format (4 bytes). A record has 40
//! bytes and then its data:
//!
//!   byte 0       the kind of call
//!   byte 1       what is answered: 0 done, 1 delivered, 2 nothing, 3 not ours, 4 refused
//!   byte 2       the number of the refusal, or 0
//!   byte 3       a loopback flag, 0 or 1
//!   bytes 4..36  eight words of 4 bytes, w0 to w7
//!   bytes 36..38 the length of the data
//!   bytes 38..40 zeros
//!
//!   kind               given                                                     answered
//!   1 plan             w0 payload length, w1 MTU                                 w4 frames, w5 padding
//!   2 fresh tracker
//!   3 next ID          w0 destination                                            w4 transfer ID
//!   4 fresh queue      w0 capacity, w1 the MTU of a fresh sender above it
//!   5 push a frame     flag, w0 stamp, w1 CAN ID, data its bytes                 what, refusal, w4 frames queued after
//!   6 return a frame   as 5                                                      as 5
//!   7 peek             -                                                         what, flag, w0 stamp, w1 CAN ID, data its bytes, w4 frames queued after
//!   8 pop              -                                                         as 7
//!   9 reserve          w0 frames                                                 what, refusal
//!   10 set the MTU     w0 MTU
//!   11 send            flag, w0 stamp, w1 header, w2 port and ID, w3 payload     what, refusal, w4 frames queued after, w5 sends done, w6 sends refused
//!   12 subscription    w0 timeout, w1 kind + 2^8 node + 2^16 port, w2 extent
//!   13 accept          flag, w0 stamp, w1 CAN ID, data its bytes                 what, refusal; of a delivery also w2 header, w3 port, ID and flag,
//!                                                                                w4 stamp, w5 length, w6 the mix of its bytes
//!
//! A header is kind + 2^8 priority + 2^16 source + 2^24 destination, 255 standing for no node. Port, ID and flag are port + 2^16 transfer ID + 2^24 flag.
//! A payload is length + 2^16 seed, and its bytes follow from the seed: x becomes 1664525 x + 1013904223 modulo 2^32 before each byte, which is x / 2^24; x
//! begins as the seed. The mix of bytes begins as 2166136261; for each byte it becomes (mix xor byte) times 16777619 modulo 2^32.
use crate::chance::Chance;
use crate::mode::Mode;
use crate::{queue, receive, send};
use original::door::{line, made, plan, Line, Tracker};
use original::rx_door::Receiver;
use plain::{Answer, Delivery, Frame, Header, Transfer};
use std::{fs, io};

const SEED: u64 = 7;

#[derive(Default)]
struct Record {
    kind: u8,
    what: u8,
    refusal: u8,
    flag: bool,
    words: [u32; 8],
    data: Vec<u8>,
}

impl Record {
    fn new(kind: u8, given: &[u32]) -> Self {
        let mut words = [0; 8];
        words[..given.len()].copy_from_slice(given);
        Record { kind, words, ..Record::default() }
    }

    fn of_frame(kind: u8, frame: &Frame) -> Self {
        Record { flag: frame.loopback, data: frame.bytes().to_vec(), ..Record::new(kind, &[frame.stamp, frame.id]) }
    }

    fn answered(mut self, answer: Result<(), u8>) -> Self {
        if let Err(number) = answer {
            (self.what, self.refusal) = (REFUSED, number);
        }
        self
    }

    /// The words from w4 on.
    fn then(mut self, answered: &[u32]) -> Self {
        self.words[4..][..answered.len()].copy_from_slice(answered);
        self
    }

    fn write(&self, to: &mut Vec<u8>) {
        to.extend([self.kind, self.what, self.refusal, u8::from(self.flag)]);
        self.words.iter().for_each(|word| to.extend(word.to_le_bytes()));
        to.extend((self.data.len() as u16).to_le_bytes());
        to.extend([0, 0]);
        to.extend(&self.data);
    }
}

const DELIVERED: u8 = 1;
const NOTHING: u8 = 2;
const NOT_OURS: u8 = 3;
const REFUSED: u8 = 4;

fn header(header: &Header) -> u32 {
    u32::from_le_bytes([header.kind, header.priority, header.source, header.destination])
}

/// The payload of a seed.
fn payload(length: usize, seed: u16) -> Vec<u8> {
    let mut x = u32::from(seed);
    let mut byte = || {
        x = x.wrapping_mul(1_664_525).wrapping_add(1_013_904_223);
        (x >> 24) as u8
    };
    (0..length).map(|_| byte()).collect()
}

fn mix(bytes: &[u8]) -> u32 {
    bytes.iter().fold(2_166_136_261, |mix, byte| (mix ^ u32::from(*byte)).wrapping_mul(16_777_619))
}

fn plans(all: &mut Vec<Record>) {
    for mtu in [8, 64] {
        for length in (0..=200).chain((201..1024).step_by(17)).chain([1023, 1024]) {
            let plan = plan(length, mtu);
            all.push(Record::new(1, &[length as u32, mtu as u32]).then(&[plan.frames as u32, plan.padding as u32]));
        }
    }
}

fn tracker(all: &mut Vec<Record>) {
    let (chance, mut tracker) = (&mut Chance::new(SEED, 0), Tracker::new(&[0; 128]));
    all.push(Record::new(2, &[]));
    for call in 0..600 {
        // Each destination once, then few of them, so that numbers wrap.
        let destination = if call < 128 { call as u8 } else { chance.of(&[0, 5, 6, 12, 126, 127]) };
        let id = tracker.next_transfer_id(destination).expect("a destination");
        all.push(Record::new(3, &[destination.into()]).then(&[id.into()]));
    }
}

/// A peek or a pop.
fn shown(kind: u8, frame: Option<Frame>, queued: usize) -> Record {
    let record = match frame {
        Some(frame) => Record::of_frame(kind, &frame),
        None => Record { what: NOTHING, ..Record::new(kind, &[]) },
    };
    record.then(&[queued as u32])
}

fn queues(all: &mut Vec<Record>) {
    for (setup, calls) in queue::Queue::histories(SEED).take(40).filter(|(setup, _)| setup.capacity <= 256) {
        let mut line = line(setup.capacity);
        all.push(Record::new(4, &[setup.capacity as u32, 8]));
        for call in calls.iter().take(60) {
            all.extend(queue_call(&mut *line, call));
        }
    }
}

/// None where the original's types do not hold the frame.
fn queue_call(line: &mut dyn Line, call: &queue::Call) -> Option<Record> {
    Some(match call {
        queue::Call::Push(frame) => {
            made(frame).ok()?;
            let answer = line.push_frame(frame);
            Record::of_frame(5, frame).answered(answer).then(&[line.len() as u32])
        }
        queue::Call::Return(frame) => {
            made(frame).ok()?;
            let answer = line.return_frame(frame);
            Record::of_frame(6, frame).answered(answer).then(&[line.len() as u32])
        }
        queue::Call::Peek => shown(7, line.peek_frame(), line.len()),
        queue::Call::Pop => shown(8, line.pop_frame(), line.len()),
        queue::Call::Reserve(frames) => Record::new(9, &[u32::try_from(*frames).ok()?]).answered(line.try_reserve(*frames)),
    })
}

fn sends(all: &mut Vec<Record>) {
    let random = send::Send::histories(SEED).skip_while(|(_, calls)| calls.len() > 60).take(60);
    for (setup, calls) in random.filter(|(setup, _)| setup.mtu == 8 || setup.mtu == 64) {
        let mut line = line(setup.capacity);
        line.set_mtu(setup.mtu);
        all.push(Record::new(4, &[setup.capacity as u32, setup.mtu as u32]));
        for call in &calls {
            send_call(&mut *line, call, all);
        }
    }
}

fn send_call(line: &mut dyn Line, call: &send::Call, all: &mut Vec<Record>) {
    match call {
        send::Call::Send(transfer, bytes) => all.extend(sent(line, transfer, bytes.len())),
        send::Call::Pop(count) => {
            for _ in 0..*count.min(&20) {
                all.push(shown(8, line.pop_frame(), line.len()));
            }
        }
        send::Call::SetMtu(mtu) if matches!(mtu, 8 | 64) => {
            line.set_mtu(*mtu);
            all.push(Record::new(10, &[*mtu as u32]));
        }
        send::Call::SetMtu(_) => {}
    }
}

/// None where the original cannot express the transfer, or where document 01 refuses what it sends.
fn sent(line: &mut dyn Line, transfer: &Transfer, length: usize) -> Option<Record> {
    let anonymous = transfer.header.kind == plain::MESSAGE && transfer.header.source == plain::NO_NODE;
    if length > 1024 || anonymous && length > line.room() {
        return None;
    }
    let seed = transfer.stamp as u16;
    let answer = line.send(transfer, &payload(length, seed));
    if answer == Err(12) {
        return None;
    }
    let given = [
        transfer.stamp,
        header(&transfer.header),
        u32::from(transfer.header.port) | u32::from(transfer.transfer_id) << 16,
        length as u32 | u32::from(seed) << 16,
    ];
    let (done, refused) = line.counts();
    let record = Record { flag: transfer.loopback, ..Record::new(11, &given) };
    Some(record.answered(answer).then(&[line.len() as u32, done as u32, refused as u32]))
}

fn receives(all: &mut Vec<Record>) {
    for (setup, frames) in receive::Receive::histories(SEED).take(90).filter(|(setup, _)| setup.lacking == 0) {
        let asked = setup.asked;
        let mut receiver = Receiver::new(&asked).expect("within the limits");
        let what = u32::from(asked.kind) | u32::from(asked.node) << 8 | u32::from(asked.port) << 16;
        all.push(Record::new(12, &[asked.timeout, what, asked.extent as u32]));
        let held = frames.iter().take(60).filter_map(|frame| Some((frame, made(frame).ok()?)));
        all.extend(held.map(|(frame, made)| received(frame, receiver.accept(made))));
    }
}

fn received(frame: &Frame, answer: Answer) -> Record {
    let record = Record::of_frame(13, frame);
    match answer {
        Answer::Nothing => Record { what: NOTHING, ..record },
        Answer::NotOurs => Record { what: NOT_OURS, ..record },
        Answer::Refused(number) => record.answered(Err(number)),
        Answer::Delivered(delivery) => delivered(record, &delivery),
    }
}

fn delivered(mut record: Record, delivery: &Delivery) -> Record {
    record.what = DELIVERED;
    record.words[2] = header(&delivery.header);
    record.words[3] = u32::from(delivery.header.port) | u32::from(delivery.transfer_id) << 16 | u32::from(delivery.loopback) << 24;
    record.then(&[delivery.stamp, delivery.bytes.len() as u32, mix(&delivery.bytes)])
}

/// Writes the list, and says how many calls of each kind it has.
pub fn write(path: &str) -> io::Result<()> {
    let mut all = Vec::new();
    plans(&mut all);
    tracker(&mut all);
    queues(&mut all);
    sends(&mut all);
    receives(&mut all);
    let mut bytes = Vec::new();
    bytes.extend((all.len() as u32).to_le_bytes());
    bytes.extend(1u32.to_le_bytes());
    all.iter().for_each(|record| record.write(&mut bytes));
    let kinds: Vec<usize> = (1..=13).map(|kind| all.iter().filter(|record| record.kind == kind).count()).collect();
    println!("answers, seed {SEED}: {} records, {} bytes; of the kinds 1 to 13: {kinds:?}", all.len(), bytes.len());
    fs::write(path, bytes)
}
