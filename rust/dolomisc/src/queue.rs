use crate::doors::{self, Place};
use crate::{result, Refusal};
use core::fmt;

/// A frame whose bytes lie elsewhere.
#[derive(Clone, Copy, Debug, PartialEq, Eq)]
pub struct Frame<'a> {
    /// In microseconds, of a clock that may wrap.
    pub stamp: u32,
    /// The extended CAN ID, 29 bits.
    pub id: u32,
    /// Whether the frame is one of our own that the driver gave back.
    pub loopback: bool,
    /// At most 64 bytes.
    pub data: &'a [u8],
}

impl Frame<'_> {
    pub(crate) fn marks(&self) -> doors::Marks {
        doors::Marks { stamp: self.stamp, id: self.id, loopback: self.loopback.into() }
    }
}

/// A frame with its bytes, as a queue hands it out.
#[derive(Clone, Copy)]
pub struct OwnedFrame(doors::Frame);

impl OwnedFrame {
    fn of(frame: doors::Frame) -> Option<OwnedFrame> {
        (frame.what == doors::DONE).then_some(OwnedFrame(frame))
    }

    /// In microseconds.
    pub fn stamp(&self) -> u32 {
        self.0.marks.stamp
    }

    /// The extended CAN ID.
    pub fn id(&self) -> u32 {
        self.0.marks.id
    }

    /// Whether the driver gives the frame back.
    pub fn loopback(&self) -> bool {
        self.0.marks.loopback != 0
    }

    /// The frame's bytes.
    pub fn data(&self) -> &[u8] {
        self.0.bytes.get(..self.0.length).unwrap_or(&[])
    }

    /// The frame, its bytes borrowed from here.
    pub fn as_frame(&self) -> Frame<'_> {
        Frame { stamp: self.stamp(), id: self.id(), loopback: self.loopback(), data: self.data() }
    }
}

impl fmt::Debug for OwnedFrame {
    fn fmt(&self, f: &mut fmt::Formatter<'_>) -> fmt::Result {
        self.as_frame().fmt(f)
    }
}

impl PartialEq for OwnedFrame {
    fn eq(&self, other: &OwnedFrame) -> bool {
        self.as_frame() == other.as_frame()
    }
}

impl Eq for OwnedFrame {}

/// Frames by CAN ID, the smallest and so the most urgent first, and frames of one ID in the order in which they came. It owns its places, as
/// `Queue<[Place; 16]>`, or borrows them, as `Queue<&mut [Place]>`.
///
/// ```
/// use dolomisc::{Frame, Place, Queue, Refusal};
///
/// # fn main() -> Result<(), Refusal> {
/// let mut memory = [Place::EMPTY; 2];
/// let mut queue = Queue::new(&mut memory[..])?;
/// let frame = |id, data| Frame { stamp: 0, id, loopback: false, data };
/// queue.push_frame(frame(9, &[1]))?;
/// queue.push_frame(frame(5, &[2]))?;
/// assert_eq!(queue.push_frame(frame(1, &[3])), Err(Refusal::NoPlace));
/// assert_eq!(queue.pop_frame().unwrap().data(), &[2]);
/// # Ok(())
/// # }
/// ```
pub struct Queue<P> {
    state: doors::Queue,
    places: P,
}

impl<P: AsRef<[Place]> + AsMut<[Place]>> Queue<P> {
    /// An empty queue for as many frames as there are places. Refuses more than 256 places.
    pub fn new(places: P) -> Result<Self, Refusal> {
        let mut state = doors::Queue { head: 0, length: 0, capacity: 0 };
        let capacity = places.as_ref().len();
        // SAFETY: `state` is a whole queue.
        let answer = unsafe { doors::dolomisc_queue_new(&mut state, capacity) };
        result(answer.what, answer.refusal)?;
        Ok(Queue { state, places })
    }

    /// The number of frames queued.
    pub fn len(&self) -> usize {
        let places = self.places.as_ref();
        // SAFETY: the pointer and the count are those of one slice.
        unsafe { doors::dolomisc_queue_len(&self.state, places.as_ptr(), places.len()) }
    }

    /// Whether no frame is queued.
    pub fn is_empty(&self) -> bool {
        let places = self.places.as_ref();
        // SAFETY: the pointer and the count are those of one slice.
        unsafe { doors::dolomisc_queue_is_empty(&self.state, places.as_ptr(), places.len()) }
    }

    /// The greatest number of frames that the queue can hold.
    pub fn capacity(&self) -> usize {
        // SAFETY: `state` is a whole queue.
        unsafe { doors::dolomisc_queue_capacity(&self.state) }
    }

    /// Whether so many more frames find a place.
    pub fn try_reserve(&self, frames: usize) -> Result<(), Refusal> {
        let places = self.places.as_ref();
        // SAFETY: the pointer and the count are those of one slice.
        let answer = unsafe { doors::dolomisc_queue_try_reserve(&self.state, places.as_ptr(), places.len(), frames) };
        result(answer.what, answer.refusal)
    }

    /// Puts a frame behind those with its ID. Refuses by 3, 1, 13; the queue is then as it was.
    pub fn push_frame(&mut self, frame: Frame<'_>) -> Result<(), Refusal> {
        let places = self.places.as_mut();
        // SAFETY: each pointer and its count are those of one slice, and what is written is borrowed as `&mut`.
        let answer = unsafe {
            doors::dolomisc_queue_push_frame(&mut self.state, places.as_mut_ptr(), places.len(), frame.marks(), frame.data.as_ptr(), frame.data.len())
        };
        result(answer.what, answer.refusal)
    }

    /// Puts a frame in front of those with its ID, as one that the driver could not send. Refuses by 3, 1, 13; the queue is then as it was.
    pub fn return_frame(&mut self, frame: Frame<'_>) -> Result<(), Refusal> {
        let places = self.places.as_mut();
        // SAFETY: each pointer and its count are those of one slice, and what is written is borrowed as `&mut`.
        let answer = unsafe {
            doors::dolomisc_queue_return_frame(&mut self.state, places.as_mut_ptr(), places.len(), frame.marks(), frame.data.as_ptr(), frame.data.len())
        };
        result(answer.what, answer.refusal)
    }

    /// The frame that leaves next, which stays queued.
    pub fn peek_frame(&self) -> Option<OwnedFrame> {
        let places = self.places.as_ref();
        // SAFETY: the pointer and the count are those of one slice.
        OwnedFrame::of(unsafe { doors::dolomisc_queue_peek_frame(&self.state, places.as_ptr(), places.len()) })
    }

    /// Takes the frame that leaves next out of the queue.
    pub fn pop_frame(&mut self) -> Option<OwnedFrame> {
        let places = self.places.as_ref();
        // SAFETY: the pointer and the count are those of one slice.
        OwnedFrame::of(unsafe { doors::dolomisc_queue_pop_frame(&mut self.state, places.as_ptr(), places.len()) })
    }

    pub(crate) fn lend(&mut self) -> (&mut doors::Queue, &mut [Place]) {
        (&mut self.state, self.places.as_mut())
    }
}
