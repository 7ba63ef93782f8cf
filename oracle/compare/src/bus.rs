//! Random traffic of a bus: several sources send transfers, and frames are lost, repeated, reordered, damaged, cut, foreign, anonymous or looped back. Stamps
//! stand, step, jump by the timeout and one around it, by 2^31 and one around it, and go back.
use crate::chance::Chance;
use crate::receive::Setup;
use model::wire::{can_id, crc, Tail};
use model::Reading;
use plain::{Asked, Frame, Header, LONGEST, MESSAGE, NO_NODE};

/// A source, and what is left of the transfer that it sends.
struct Source {
    header: Header,
    transfer_id: u32,
    begun: u32,
    loopback: bool,
    frames: Vec<Frame>,
    at: usize,
}

pub const EXTENTS: [usize; 8] = [0, 1, 7, 8, 63, 64, 256, 1024];

fn asked(chance: &mut Chance) -> Asked {
    let kind = chance.of(&[0, 0, 0, 1, 2]);
    Asked {
        kind,
        port: if kind == MESSAGE { chance.of(&[0, 256, 7509, 8191]) } else { chance.of(&[0, 430, 511]) },
        node: chance.of(&[0, 42, 127]),
        timeout: chance.of(&[0, 1, 31, 32, 1000, 2_000_000, (1 << 31) - 2, (1 << 31) - 1, 1 << 31, !0]),
        extent: chance.of(&EXTENTS),
    }
}

fn source(chance: &mut Chance, asked: &Asked) -> Source {
    let source = if chance.one_in(3) { chance.of(&[0, 1, 126, 127]) } else { chance.below(128) as u8 };
    let destination = if asked.kind == MESSAGE { NO_NODE } else { asked.node };
    Source {
        header: Header { kind: asked.kind, port: asked.port, priority: chance.below(8) as u8, source, destination },
        transfer_id: chance.of(&[0, 0, 5, 31]),
        begun: 0,
        loopback: chance.one_in(4),
        frames: Vec::new(),
        at: 0,
    }
}

/// A subscription and the frames that come to it. Something goes wrong once in `calm` frames.
pub fn history(seed: u64, number: u64) -> (Setup, Vec<Frame>) {
    let chance = &mut Chance::new(seed, number);
    let asked = asked(chance);
    let lacking = chance.one_in(40);
    // To a store that lacks a byte come many frames that are refused for more than that.
    let calm = if lacking { 2 } else { chance.of(&[4, 20, 300]) };
    let count = 1 + if chance.one_in(4) { chance.below(600) } else { chance.below(60) } as usize;
    let nodes = chance.of(&[1, 1, 2, 3, 9, 60]);
    let mut sources: Vec<Source> = (0..nodes).map(|_| source(chance, &asked)).collect();
    let mut now = chance.of(&[0, 1000, 0x7FFF_FFF0, 0xFFFF_FFF0]);
    let mut sent = Vec::with_capacity(count);
    while sent.len() < count {
        let source = &mut sources[chance.below(nodes) as usize];
        now = stamp(chance, &asked, source, now, calm);
        sent.extend(next(chance, &asked, source, now, calm));
    }
    (Setup { asked, lacking: usize::from(lacking) }, sent)
}

/// The stamp of the next frame; a transfer that follows another often comes as long after it as matters.
fn stamp(chance: &mut Chance, asked: &Asked, source: &mut Source, now: u32, calm: u32) -> u32 {
    let mut now = now.wrapping_add(if chance.one_in(calm) { step(chance, asked.timeout) } else { chance.of(&[0, 0, 1, 7]) });
    if source.at >= source.frames.len() {
        begin(chance, asked, source, calm);
        if chance.one_in(3) {
            now = source.begun.wrapping_add(step(chance, asked.timeout));
        }
        source.begun = now;
    }
    now
}

/// Steps of the clock: those at which an age is just young or just old among them.
fn step(chance: &mut Chance, timeout: u32) -> u32 {
    let far = 1 << 31;
    let odd = chance.below(1 << 31);
    chance.of(&[0, 1, timeout.wrapping_sub(1), timeout, timeout.wrapping_add(1), far - 1, far, far + 1, !0, !6, odd, odd << 1])
}

/// The next frame of a source, unless it is lost or waits.
fn next(chance: &mut Chance, asked: &Asked, source: &mut Source, now: u32, calm: u32) -> Option<Frame> {
    let mut frame = source.frames[source.at];
    source.at += 1;
    frame.stamp = now;
    if !chance.one_in(calm) {
        return Some(frame);
    }
    match chance.below(8) {
        // lost
        0 => return None,
        // repeated
        1 => source.at -= 1,
        // begun again
        2 => source.at = 0,
        // after the next one
        3 => {
            let last = source.frames.len() - 1;
            source.frames.swap(source.at.min(last), source.at - 1);
            source.at -= 1;
            return None;
        }
        // given up
        4 => source.at = source.frames.len(),
        _ => spoil(chance, asked, &mut frame),
    }
    Some(frame)
}

/// The next transfer of a source.
fn begin(chance: &mut Chance, asked: &Asked, source: &mut Source, calm: u32) {
    let odd = chance.below(32);
    let next = source.transfer_id + 1;
    let strange = chance.one_in(calm.min(30));
    source.transfer_id = if strange { chance.of(&[next - 1, next - 1, next + 30, next + 1, odd]) } else { next } % 32;
    if chance.one_in(8) {
        source.header.priority = chance.below(8) as u8;
        source.loopback = chance.one_in(4);
    }
    let room = chance.of(&[7, 7, 63, 63, 0, 3]);
    let mut bytes = payload(chance, asked);
    let whole = if room == 0 { chance.one_in(3) && bytes.len() < 64 } else { bytes.len() <= room };
    if !whole {
        close(chance, &mut bytes);
    }
    cut(chance, source, &bytes, whole, room);
}

fn payload(chance: &mut Chance, asked: &Asked) -> Vec<u8> {
    let extent = asked.extent as u32;
    let length = match chance.below(8) {
        0 => chance.below(3),
        1..=3 => chance.below(24),
        4 => chance.below(130),
        5 => (extent + chance.below(6)).saturating_sub(3),
        6 => chance.below(2 * extent + 1),
        _ => chance.of(&[7, 8, 13, 63, 64]),
    };
    chance.bytes(length as usize)
}

/// Padding and CRC, or what is wrong with them.
fn close(chance: &mut Chance, bytes: &mut Vec<u8>) {
    if chance.one_in(4) {
        bytes.resize(bytes.len() + chance.below(9) as usize, 0);
    }
    bytes.extend(crc(0xFFFF, bytes).to_be_bytes());
    if chance.one_in(30) {
        let at = chance.below(bytes.len() as u32) as usize;
        bytes[at] ^= 1 << chance.below(8);
    }
    if chance.one_in(200) {
        bytes.truncate(chance.below(3) as usize);
    }
}

/// Frames of so much room each, or of any room if it is 0.
fn cut(chance: &mut Chance, source: &mut Source, bytes: &[u8], whole: bool, room: usize) {
    source.frames.clear();
    source.at = 0;
    let id = can_id(Reading::Right, &source.header, &[]);
    let mut left = bytes;
    loop {
        let at = source.frames.len();
        let room = match (whole, room) {
            (true, _) => 63,
            (false, 0) => chance.below(64) as usize,
            (false, room) => room,
        };
        let mut taken = room.min(left.len());
        // A transfer that has a CRC has two frames or more.
        if at == 0 && !whole && taken == left.len() {
            taken = taken.saturating_sub(1);
        }
        let (part, rest) = left.split_at(taken);
        left = rest;
        let end = left.is_empty() && (whole || at > 0);
        let tail = Tail { start: at == 0, end, toggle: at % 2 == 0, transfer_id: source.transfer_id as u8 };
        source.frames.push(Frame::new(0, id, source.loopback, &[part, &[tail.byte()]].concat()));
        if end {
            return;
        }
    }
}

fn spoil(chance: &mut Chance, asked: &Asked, frame: &mut Frame) {
    let message = asked.kind == MESSAGE;
    let length = frame.bytes().len();
    let tail = &mut frame.bytes_mut()[length - 1];
    match chance.below(17) {
        0 | 1 => *tail ^= 32,
        2 => *tail ^= 128,
        3 => *tail ^= 64,
        4 => *tail = tail.wrapping_add(chance.of(&[1, 31, 2])) & 31 | *tail & 224,
        5 => *tail = chance.next() as u8,
        6 | 7 => frame.loopback ^= true,
        8 => frame.bytes_mut()[chance.below(length as u32) as usize] ^= 1 << chance.below(8),
        9 => {
            let (kept, tail) = (1 + chance.below(length as u32) as usize, *tail);
            frame.set_length(kept);
            frame.bytes_mut()[kept - 1] = tail;
        }
        10 => frame.set_length(chance.of(&[0, LONGEST])),
        // a foreign port, kind, destination or reserved bit, or an ID of 2^29 or more
        11 => frame.id ^= 1 << chance.below(32),
        // anonymous, if it is a message
        12 | 13 => frame.id |= u32::from(message) << 24,
        // bits that nobody looks at
        14 => frame.id ^= if message { 3 << 21 } else { 0 },
        15 => frame.id ^= chance.below(8) << 26,
        _ => {
            frame.set_length(1 + chance.below(64) as usize);
            frame.bytes_mut().iter_mut().for_each(|byte| *byte = chance.next() as u8);
        }
    }
}
