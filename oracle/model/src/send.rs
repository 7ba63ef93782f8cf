//! Sending: the judgement by 9, 12, 10, 11, 13, then all frames or none, and the two counts.
use crate::wire::{can_id, crc, plan, too_long, Tail};
use crate::{Queue, Reading};
use plain::{Frame, Header, Transfer, MESSAGE, NO_NODE};

pub struct Sender {
    reading: Reading,
    pub mtu: usize,
    pub done: u64,
    pub refused: u64,
}

impl Sender {
    pub fn new(reading: Reading, mtu: usize, done: u64, refused: u64) -> Self {
        Sender { reading, mtu, done, refused }
    }

    pub fn send(&mut self, queue: &mut Queue, transfer: &Transfer, payload: &[u8]) -> Result<(), u8> {
        let answer = self.place(queue, transfer, payload);
        match answer {
            Ok(()) if self.reading == Reading::CountStops => self.done = self.done.saturating_add(1),
            Ok(()) => self.done = self.done.wrapping_add(1),
            Err(13) if self.reading == Reading::RefusedNotCounted => {}
            Err(_) => self.refused = self.refused.wrapping_add(1),
        }
        answer
    }

    fn place(&self, queue: &mut Queue, transfer: &Transfer, payload: &[u8]) -> Result<(), u8> {
        self.judge(transfer, payload)?;
        let frames = frames(self.reading, transfer, payload, self.mtu);
        if let Err(number) = queue.try_reserve(frames.len()) {
            if self.reading == Reading::PartOfASend {
                frames.into_iter().take(queue.free()).for_each(|frame| queue.push_frame(frame).expect("room"));
            }
            return Err(number);
        }
        frames.into_iter().for_each(|frame| queue.push_frame(frame).expect("room"));
        Ok(())
    }

    fn judge(&self, transfer: &Transfer, payload: &[u8]) -> Result<(), u8> {
        if self.mtu != 8 && self.mtu != 64 {
            return Err(9);
        }
        let long = too_long(self.reading, payload.len());
        if long && self.reading == Reading::LengthBeforeFields {
            return Err(10);
        }
        if transfer.transfer_id > 31 || !within_limits(&transfer.header) {
            return Err(12);
        }
        if long {
            return Err(10);
        }
        let most = if self.reading == Reading::AnonymousInAFullMtu { self.mtu } else { self.mtu - 1 };
        if transfer.header.kind == MESSAGE && transfer.header.source == NO_NODE && payload.len() > most {
            return Err(11);
        }
        Ok(())
    }
}

/// Only a message may have no source, and a message has no destination.
fn within_limits(header: &Header) -> bool {
    let service = header.source <= 127 && header.destination <= 127 && header.port <= 511;
    let message = (header.source <= 127 || header.source == NO_NODE) && header.port <= 8191;
    header.priority <= 7 && header.kind <= 2 && if header.kind == MESSAGE { message } else { service }
}

/// The frames of a transfer: payload, padding and, for several frames, the CRC, cut into parts with a tail behind each.
pub fn frames(reading: Reading, transfer: &Transfer, payload: &[u8], mtu: usize) -> Vec<Frame> {
    let id = can_id(reading, &transfer.header, payload);
    let bytes = body(reading, payload, mtu);
    let mut parts: Vec<&[u8]> = bytes.chunks(mtu - 1).collect();
    if parts.is_empty() {
        parts.push(&[]);
    }
    let last = parts.len() - 1;
    let first_toggle = reading != Reading::FirstToggleClear;
    let frame = |(at, part): (usize, &&[u8])| {
        let tail = Tail { start: at == 0, end: at == last, toggle: (at % 2 == 0) == first_toggle, transfer_id: transfer.transfer_id };
        let stamp = if at > 0 && reading == Reading::StampOfNow { 0 } else { transfer.stamp };
        Frame::new(stamp, id, transfer.loopback, &[*part, &[tail.byte()]].concat())
    };
    parts.iter().enumerate().map(frame).collect()
}

/// What the frames carry before their tails.
fn body(reading: Reading, payload: &[u8], mtu: usize) -> Vec<u8> {
    let plan = plan(reading, payload.len(), mtu).expect("judged");
    let mut bytes = payload.to_vec();
    bytes.resize(payload.len() + plan.padding, 0);
    let room = mtu - 1;
    let crc_in_full_frame = reading == Reading::CrcInAFullFrame && payload.len() == room;
    if payload.len() <= room && !crc_in_full_frame {
        return bytes;
    }
    let start = if reading == Reading::CrcStartsAtZero { 0 } else { 0xFFFF };
    let over = if matches!(reading, Reading::CrcWithoutPadding | Reading::PaddingAfterCrc) { payload } else { &bytes };
    let mut crc = crc(start, over).to_be_bytes();
    if reading == Reading::CrcLowByteFirst {
        crc.reverse();
    }
    let at = if reading == Reading::PaddingAfterCrc { payload.len() } else { bytes.len() };
    bytes.splice(at..at, crc);
    bytes
}
