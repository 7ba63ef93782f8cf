//! "On the wire": the CAN ID, the tail byte, the CRC and the frame plan.
use crate::Reading;
use plain::{Header, Plan, MESSAGE, NO_NODE, REQUEST};

/// Payload 0 to 1,024 bytes.
pub const PAYLOAD_MAX: usize = 1024;

pub fn crc(start: u16, bytes: &[u8]) -> u16 {
    bytes.iter().fold(start, |crc, byte| crc_bits(crc ^ u16::from(*byte) << 8))
}

fn crc_bits(crc: u16) -> u16 {
    (0..8).fold(crc, |crc, _| if crc & 0x8000 != 0 { crc << 1 ^ 0x1021 } else { crc << 1 })
}

// ---- the tail byte

#[derive(Clone, Copy)]
pub struct Tail {
    pub start: bool,
    pub end: bool,
    pub toggle: bool,
    pub transfer_id: u8,
}

impl Tail {
    pub fn byte(self) -> u8 {
        u8::from(self.start) * 128 + u8::from(self.end) * 64 + u8::from(self.toggle) * 32 + self.transfer_id
    }

    pub fn read(byte: u8) -> Tail {
        Tail { start: byte >= 128, end: byte & 64 != 0, toggle: byte & 32 != 0, transfer_id: byte % 32 }
    }
}

// ---- the CAN ID

pub fn can_id(reading: Reading, header: &Header, payload: &[u8]) -> u32 {
    let anonymous = header.kind == MESSAGE && header.source == NO_NODE;
    let source = if anonymous { pseudo_source(reading, payload) } else { header.source };
    let common = u32::from(header.priority) << 26 | u32::from(source);
    let port = u32::from(header.port);
    if header.kind == MESSAGE {
        let set = if reading == Reading::ReservedBitsSentClear { 0 } else { 3 << 21 };
        return common | port << 8 | set | u32::from(anonymous) << 24;
    }
    let request = (header.kind == REQUEST) != (reading == Reading::ResponseMarkedRequest);
    common | 1 << 25 | u32::from(request) << 24 | port << 14 | u32::from(header.destination) << 7
}

fn pseudo_source(reading: Reading, payload: &[u8]) -> u8 {
    let start = if reading == Reading::PseudoFromZero { 0 } else { 0x55 };
    let low = payload.iter().fold(start, |bits, byte| bits ^ byte) & 127;
    let greatest = if reading == Reading::PseudoMayBeReserved { 126 } else { 125 };
    low.min(greatest)
}

/// The header that an ID says, or refusal 4.
pub fn read_can_id(reading: Reading, id: u32) -> Result<Header, u8> {
    let bit = |at: u32| id >> at & 1 == 1;
    let service = bit(25);
    if bit(23) || bit(7) && (!service || reading == Reading::ServiceBit7Reserved) {
        return Err(4);
    }
    let (priority, source) = ((id >> 26) as u8, id as u8 & 127);
    if !service {
        let source = if bit(24) { NO_NODE } else { source };
        return Ok(Header { kind: MESSAGE, port: (id >> 8) as u16 & 8191, priority, source, destination: NO_NODE });
    }
    let request = bit(24) != (reading == Reading::ResponseMarkedRequest);
    let kind = if request { REQUEST } else { plain::RESPONSE };
    Ok(Header { kind, port: (id >> 14) as u16 & 511, priority, source, destination: (id >> 7) as u8 & 127 })
}

// ---- the frame plan

const LENGTHS: [usize; 16] = [0, 1, 2, 3, 4, 5, 6, 7, 8, 12, 16, 20, 24, 32, 48, 64];

fn raised(reading: Reading, rest: usize) -> usize {
    if reading == Reading::RaisedTo40 && (33..=40).contains(&rest) {
        return 40;
    }
    LENGTHS.into_iter().find(|length| *length >= rest).expect("at most 64")
}

/// Frames and padding. Refuses by 9, 10.
pub fn plan(reading: Reading, payload: usize, mtu: usize) -> Result<Plan, u8> {
    if mtu != 8 && mtu != 64 {
        return Err(9);
    }
    if too_long(reading, payload) {
        return Err(10);
    }
    let room = mtu - 1;
    let fits = if reading == Reading::CrcInAFullFrame { payload < room } else { payload <= room };
    let filled = payload + if fits { 0 } else { 2 };
    let tails = filled.div_ceil(room).max(1);
    let total = filled + if reading == Reading::NoTailCounted { 0 } else { tails };
    let rest = total % mtu;
    Ok(Plan { frames: total.div_ceil(mtu), padding: raised(reading, rest) - rest })
}

pub fn too_long(reading: Reading, payload: usize) -> bool {
    payload > PAYLOAD_MAX || payload == PAYLOAD_MAX && reading == Reading::LimitLeftOut
}
