//! What is measured. Buffers: a queue of 256 places for sending, on both sides the caller's own and used again; an extent of 1,024 bytes for receiving, of which
//! the original takes a new part from the heap for each transfer; frames to be received or pushed are made before, and the original gets a copy of each, since it
//! takes them by value.
use plain::{Asked, Frame, Header, Receives, Sends, Transfer, MESSAGE, NO_NODE};
use std::hint::black_box;

/// One piece of work, which says how many bytes it gave.
pub type Work = Box<dyn FnMut() -> usize>;

pub struct Case {
    pub name: String,
    /// Transfers or frames in one piece of work.
    pub parts: usize,
    /// Here, the original with a CRC by table, the original with a CRC bit by bit.
    pub sides: [Work; 3],
}

const HEADER: Header = Header { kind: MESSAGE, port: 256, priority: 4, source: 42, destination: NO_NODE };
const ASKED: Asked = Asked { kind: MESSAGE, port: 256, node: 0, timeout: 2_000_000, extent: 1024 };

fn scan(length: usize) -> Vec<u8> {
    (0..length as u32).map(|i| (i.wrapping_mul(2_654_435_761) >> 13) as u8).collect()
}

fn transfer(transfer_id: u8) -> Transfer {
    Transfer { header: HEADER, transfer_id, stamp: 7, loopback: false }
}

fn line(capacity: usize, mtu: usize) -> ours::Line {
    ours::Line::new(capacity, capacity, mtu, (0, 0)).expect("a queue")
}

// ---- sending: push, then pop all

fn sent<S: Sends>(mut side: S, payload: &[u8]) -> Vec<Frame> {
    side.send(&transfer(3), payload).expect("room");
    side.queued()
}

fn sending<S: Sends + 'static>(mut side: S, payload: Vec<u8>) -> Work {
    Box::new(move || {
        side.send(black_box(&transfer(3)), black_box(&payload)).expect("room");
        side.drain()
    })
}

fn send(length: usize, mtu: usize) -> Case {
    let payload = scan(length);
    let here = sent(line(256, mtu), &payload);
    assert_eq!(here, sent(original::door::Sending::<256>::at(mtu), &payload));
    assert_eq!(here, sent(original_bitwise::door::Sending::<256>::at(mtu), &payload));
    let sides = [
        sending(line(256, mtu), payload.clone()),
        sending(original::door::Sending::<256>::at(mtu), payload.clone()),
        sending(original_bitwise::door::Sending::<256>::at(mtu), payload),
    ];
    Case { name: format!("send {length} bytes at MTU {mtu}"), parts: 1, sides }
}

// ---- receiving: the frames of 32 transfers, one for each transfer ID

fn frames(length: usize, mtu: usize) -> Vec<Frame> {
    let payload = scan(length);
    (0..32).flat_map(|id| model::send::frames(model::Reading::Right, &transfer(id), &payload, mtu)).collect()
}

fn receiver() -> ours::Receiver {
    match ours::Receiver::new(&ASKED, vec![0; 128 * ASKED.extent]) {
        Ok(receiver) => receiver,
        Err((number, _)) => panic!("refusal {number}"),
    }
}

fn received<R: Receives>(mut side: R, frames: &[Frame]) -> Vec<plain::Answer> {
    frames.iter().map(|frame| side.answer(&R::make(frame))).collect()
}

fn receiving<R: Receives + 'static>(mut side: R, frames: &[Frame]) -> Work
where
    R::Made: 'static,
{
    let made: Vec<R::Made> = frames.iter().map(R::make).collect();
    Box::new(move || made.iter().filter_map(|frame| side.accept(black_box(frame))).sum())
}

fn receive(length: usize, mtu: usize) -> Case {
    let frames = frames(length, mtu);
    let table = || original::rx_door::Receiver::new(&ASKED).expect("a subscription");
    let bitwise = || original_bitwise::rx_door::Receiver::new(&ASKED).expect("a subscription");
    let here = received(receiver(), &frames);
    assert_eq!(here, received(table(), &frames));
    assert_eq!(here, received(bitwise(), &frames));
    let sides = [receiving(receiver(), &frames), receiving(table(), &frames), receiving(bitwise(), &frames)];
    Case { name: format!("receive {length} bytes at MTU {mtu}"), parts: 32, sides }
}

// ---- the queue: filled, then popped empty

/// Frames of 64 bytes under IDs of every priority, or each before all that came before it.
fn pushed(count: usize, worst: bool) -> Vec<Frame> {
    let id = |at: usize| if worst { (count - at) as u32 } else { (at as u32).wrapping_mul(2_654_435_761) >> 3 };
    (0..count).map(|at| Frame::new(7, id(at), false, &scan(64))).collect()
}

fn order<S: Sends>(mut side: S, frames: &[Frame]) -> Vec<Frame> {
    frames.iter().for_each(|frame| side.push(&S::make(frame)).expect("room"));
    side.queued()
}

fn queueing<S: Sends + 'static>(mut side: S, frames: &[Frame]) -> Work
where
    S::Made: 'static,
{
    let made: Vec<S::Made> = frames.iter().map(S::make).collect();
    Box::new(move || {
        made.iter().for_each(|frame| side.push(black_box(frame)).expect("room"));
        side.drain()
    })
}

fn queue<const N: usize>(worst: bool) -> Case {
    let frames = pushed(N, worst);
    let here = order(line(N, 64), &frames);
    assert_eq!(here, order(original::door::Sending::<N>::new(), &frames));
    assert_eq!(here, order(original_bitwise::door::Sending::<N>::new(), &frames));
    let sides = [
        queueing(line(N, 64), &frames),
        queueing(original::door::Sending::<N>::new(), &frames),
        queueing(original_bitwise::door::Sending::<N>::new(), &frames),
    ];
    let order = if worst { "each before all others" } else { "mixed priorities" };
    Case { name: format!("queue {N} frames, {order}"), parts: N, sides }
}

pub fn all() -> Vec<Case> {
    let mut all = Vec::new();
    for mtu in [8, 64] {
        all.extend([mtu - 1, 64, 1024].map(|length| send(length, mtu)));
    }
    for mtu in [8, 64] {
        all.extend([mtu - 1, 64, 1024].map(|length| receive(length, mtu)));
    }
    for worst in [false, true] {
        all.extend([queue::<16>(worst), queue::<64>(worst), queue::<256>(worst)]);
    }
    all
}
