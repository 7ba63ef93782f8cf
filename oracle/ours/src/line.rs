use crate::doors::{self, Place};
use crate::{flag, flat, marks, result};

/// Refuses by 9, 10.
pub fn plan(payload: usize, mtu: usize) -> Result<plain::Plan, u8> {
    // SAFETY: there are only numbers.
    let plan = unsafe { doors::dolomisc_frame_stats(payload, mtu) };
    let answer = result(plan.what, plan.refusal);
    assert!(answer.is_ok() || (plan.frames, plan.padding) == (0, 0), "a refusal with a plan");
    answer.map(|()| plain::Plan { frames: plan.frames, padding: plan.padding })
}

/// A queue with its places, and a sender above it.
pub struct Line {
    queue: doors::Queue,
    places: Vec<Place>,
    transmitter: doors::Transmitter,
}

impl Line {
    /// A queue that is lent so many places, refused by 14 over 256, and a sender with these counts.
    pub fn new(capacity: usize, places: usize, mtu: usize, counts: (u64, u64)) -> Result<Self, u8> {
        let mut queue = doors::Queue { head: 7, length: 7, capacity: 7 };
        let mut transmitter = doors::Transmitter { mtu: 7, transfer_count: 7, error_count: 7 };
        // SAFETY: `queue` and `transmitter` are whole.
        let answer = unsafe {
            doors::dolomisc_transmitter_new(&mut transmitter, mtu);
            doors::dolomisc_queue_new(&mut queue, capacity)
        };
        let answer = result(answer.what, answer.refusal);
        assert!(answer.is_ok() || (queue.head, queue.length, queue.capacity) == (7, 7, 7), "a refusal that made a queue");
        assert_eq!((transmitter.transfer_count, transmitter.error_count), (0, 0), "a fresh sender");
        (transmitter.transfer_count, transmitter.error_count) = counts;
        answer.map(|()| Line { queue, places: vec![Place::EMPTY; places], transmitter })
    }

    #[inline]
    pub fn push_frame(&mut self, frame: &plain::Frame) -> Result<(), u8> {
        let (places, count) = (self.places.as_mut_ptr(), self.places.len());
        let (bytes, length) = (frame.bytes().as_ptr(), frame.bytes().len());
        // SAFETY: each pointer and its count are those of one slice, and what is written is borrowed as `&mut`.
        let answer = unsafe { doors::dolomisc_queue_push_frame(&mut self.queue, places, count, marks(frame), bytes, length) };
        result(answer.what, answer.refusal)
    }

    pub fn return_frame(&mut self, frame: &plain::Frame) -> Result<(), u8> {
        let (places, count) = (self.places.as_mut_ptr(), self.places.len());
        let (bytes, length) = (frame.bytes().as_ptr(), frame.bytes().len());
        // SAFETY: each pointer and its count are those of one slice, and what is written is borrowed as `&mut`.
        let answer = unsafe { doors::dolomisc_queue_return_frame(&mut self.queue, places, count, marks(frame), bytes, length) };
        result(answer.what, answer.refusal)
    }

    pub fn peek_frame(&self) -> Option<plain::Frame> {
        // SAFETY: the pointer and the count are those of one slice.
        told(unsafe { doors::dolomisc_queue_peek_frame(&self.queue, self.places.as_ptr(), self.places.len()) })
    }

    pub fn pop_frame(&mut self) -> Option<plain::Frame> {
        popped(&mut self.queue, &self.places)
    }

    pub fn try_reserve(&self, frames: usize) -> Result<(), u8> {
        // SAFETY: the pointer and the count are those of one slice.
        let answer = unsafe { doors::dolomisc_queue_try_reserve(&self.queue, self.places.as_ptr(), self.places.len(), frames) };
        result(answer.what, answer.refusal)
    }

    pub fn len(&self) -> usize {
        // SAFETY: the pointer and the count are those of one slice.
        unsafe { doors::dolomisc_queue_len(&self.queue, self.places.as_ptr(), self.places.len()) }
    }

    pub fn is_empty(&self) -> bool {
        // SAFETY: the pointer and the count are those of one slice.
        unsafe { doors::dolomisc_queue_is_empty(&self.queue, self.places.as_ptr(), self.places.len()) }
    }

    pub fn capacity(&self) -> usize {
        // SAFETY: the queue is whole.
        unsafe { doors::dolomisc_queue_capacity(&self.queue) }
    }

    /// The frames in their order: a copy of the queue's state over the same places, which a pop only reads, is popped empty.
    pub fn order(&self, into: &mut Vec<plain::Frame>) {
        into.clear();
        let mut copy = self.queue;
        into.extend(std::iter::from_fn(|| popped(&mut copy, &self.places)));
    }

    pub fn set_mtu(&mut self, mtu: usize) {
        // SAFETY: the transmitter is whole, and borrowed as `&mut`.
        unsafe { doors::dolomisc_transmitter_set_mtu(&mut self.transmitter, mtu) }
    }

    /// The room of a frame before its tail byte.
    pub fn room(&self) -> usize {
        // SAFETY: the transmitter is whole.
        unsafe { doors::dolomisc_transmitter_mtu(&self.transmitter) }
    }

    #[inline]
    pub fn send(&mut self, transfer: &plain::Transfer, payload: &[u8]) -> Result<(), u8> {
        let loopback = flag(transfer.loopback, transfer.stamp);
        let told = doors::Transfer { header: flat(&transfer.header), transfer_id: transfer.transfer_id, loopback, stamp: transfer.stamp };
        let (places, count) = (self.places.as_mut_ptr(), self.places.len());
        let (state, queue) = (&mut self.transmitter, &mut self.queue);
        // SAFETY: each pointer and its count are those of one slice, and what is written is borrowed as `&mut`.
        let answer = unsafe { doors::dolomisc_transmitter_push(state, queue, places, count, told, payload.as_ptr(), payload.len()) };
        result(answer.what, answer.refusal)
    }

    /// Sends done and sends refused.
    pub fn counts(&self) -> (u64, u64) {
        // SAFETY: the transmitter is whole.
        unsafe { (doors::dolomisc_transmitter_transfer_count(&self.transmitter), doors::dolomisc_transmitter_error_count(&self.transmitter)) }
    }
}

fn popped(queue: &mut doors::Queue, places: &[Place]) -> Option<plain::Frame> {
    // SAFETY: the pointer and the count are those of one slice.
    told(unsafe { doors::dolomisc_queue_pop_frame(queue, places.as_ptr(), places.len()) })
}

fn told(frame: doors::Frame) -> Option<plain::Frame> {
    assert!(frame.length <= 64 && frame.bytes[frame.length..].iter().all(|byte| *byte == 0), "bytes behind a frame's");
    let told = plain::Frame::new(frame.marks.stamp, frame.marks.id, frame.marks.loopback != 0, &frame.bytes[..frame.length]);
    match frame.what {
        doors::DONE => {
            assert!(frame.marks.loopback <= 1, "a flag that comes out is 0 or 1");
            Some(told)
        }
        doors::NOTHING => {
            assert_eq!(told, plain::Frame::new(0, 0, false, &[]), "nothing, with fields");
            None
        }
        other => panic!("an answer that there is not: {other}"),
    }
}

impl plain::Sends for Line {
    type Made = plain::Frame;
    fn make(frame: &plain::Frame) -> plain::Frame {
        *frame
    }
    #[inline]
    fn push(&mut self, frame: &plain::Frame) -> Result<(), u8> {
        self.push_frame(frame)
    }
    #[inline]
    fn send(&mut self, transfer: &plain::Transfer, payload: &[u8]) -> Result<(), u8> {
        Line::send(self, transfer, payload)
    }
    #[inline]
    fn drain(&mut self) -> usize {
        let mut bytes = 0;
        loop {
            // SAFETY: the pointer and the count are those of one slice.
            let frame = unsafe { doors::dolomisc_queue_pop_frame(&mut self.queue, self.places.as_ptr(), self.places.len()) };
            if frame.what != doors::DONE {
                return bytes;
            }
            bytes += frame.length;
        }
    }
    fn queued(&mut self) -> Vec<plain::Frame> {
        let mut all = Vec::new();
        self.order(&mut all);
        all
    }
}
