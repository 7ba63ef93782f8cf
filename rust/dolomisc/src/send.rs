use crate::doors::{self, Place};
use crate::{result, Header, Queue, Refusal};

/// The next transfer ID for each of 128 destinations.
///
/// ```
/// let mut tracker = dolomisc::Tracker::new();
/// assert_eq!(tracker.next_transfer_id(5), Ok(0));
/// assert_eq!(tracker.next_transfer_id(5), Ok(1));
/// assert_eq!(tracker.next_transfer_id(6), Ok(0));
/// assert_eq!(tracker.next_transfer_id(128), Err(dolomisc::Refusal::Field));
/// ```
#[derive(Clone)]
pub struct Tracker(doors::Tracker);

impl Tracker {
    /// A tracker that gives 0 to each destination first.
    pub fn new() -> Self {
        let mut tracker = doors::Tracker { ids: [0; 20] };
        // SAFETY: `tracker` is a whole tracker.
        unsafe { doors::dolomisc_tracker_new(&mut tracker) };
        Tracker(tracker)
    }

    /// Gives the destination's transfer ID, and steps it by one modulo 32. Refuses a destination over 127 by 12.
    pub fn next_transfer_id(&mut self, destination: u8) -> Result<u8, Refusal> {
        // SAFETY: the tracker is whole, and borrowed as `&mut`.
        let given = unsafe { doors::dolomisc_tracker_next_transfer_id(&mut self.0, destination) };
        result(given.what, given.refusal)?;
        Ok(given.transfer_id)
    }
}

impl Default for Tracker {
    fn default() -> Self {
        Tracker::new()
    }
}

/// A transfer to be sent; its payload stands beside it.
#[derive(Clone, Copy, Debug, PartialEq, Eq)]
pub struct Transfer {
    /// From whom, to which port.
    pub header: Header,
    /// 0 to 31, one more than that of the last transfer with this header.
    pub transfer_id: u8,
    /// Borne by each of its frames.
    pub stamp: u32,
    /// Borne by each of its frames.
    pub loopback: bool,
}

/// Cuts transfers into frames, and counts them.
pub struct Transmitter(doors::Transmitter);

impl Transmitter {
    /// A transmitter that has sent nothing. Any MTU is taken; one that is neither 8 nor 64 has each send refused by 9.
    pub fn new(mtu: usize) -> Self {
        let mut transmitter = doors::Transmitter { mtu: 0, transfer_count: 0, error_count: 0 };
        // SAFETY: `transmitter` is a whole transmitter.
        unsafe { doors::dolomisc_transmitter_new(&mut transmitter, mtu) };
        Transmitter(transmitter)
    }

    /// Sets the MTU for the sends that follow.
    pub fn set_mtu(&mut self, mtu: usize) {
        // SAFETY: the transmitter is whole, and borrowed as `&mut`.
        unsafe { doors::dolomisc_transmitter_set_mtu(&mut self.0, mtu) }
    }

    /// The bytes of a frame before its tail byte.
    pub fn mtu(&self) -> usize {
        // SAFETY: the transmitter is whole.
        unsafe { doors::dolomisc_transmitter_mtu(&self.0) }
    }

    /// The sends done, modulo 2^64.
    pub fn transfer_count(&self) -> u64 {
        // SAFETY: the transmitter is whole.
        unsafe { doors::dolomisc_transmitter_transfer_count(&self.0) }
    }

    /// The sends refused, modulo 2^64.
    pub fn error_count(&self) -> u64 {
        // SAFETY: the transmitter is whole.
        unsafe { doors::dolomisc_transmitter_error_count(&self.0) }
    }

    /// Puts all frames of a transfer into the queue, or none. Refuses by 9, 12, 10, 11, 13; the queue is then as it was, and the count of refused sends has stepped.
    pub fn push<P: AsRef<[Place]> + AsMut<[Place]>>(&mut self, queue: &mut Queue<P>, transfer: &Transfer, payload: &[u8]) -> Result<(), Refusal> {
        let (state, places) = queue.lend();
        let flat = doors::Transfer {
            header: transfer.header.told(),
            transfer_id: transfer.transfer_id,
            loopback: transfer.loopback.into(),
            stamp: transfer.stamp,
        };
        // SAFETY: each pointer and its count are those of one slice, and what is written is borrowed as `&mut`.
        let answer = unsafe {
            doors::dolomisc_transmitter_push(&mut self.0, state, places.as_mut_ptr(), places.len(), flat, payload.as_ptr(), payload.len())
        };
        result(answer.what, answer.refusal)
    }
}

/// How a payload is cut.
#[derive(Clone, Copy, Debug, PartialEq, Eq)]
pub struct FrameStats {
    /// As many free places are needed to send it.
    pub frames: usize,
    /// Zeros behind the payload, which give the last frame a length that CAN FD has.
    pub padding: usize,
}

/// The plan of a payload of so many bytes. Refuses by 9, 10.
///
/// ```
/// assert_eq!(dolomisc::frame_stats(1024, 8).unwrap().frames, 147);
/// ```
pub fn frame_stats(payload_length: usize, mtu: usize) -> Result<FrameStats, Refusal> {
    // SAFETY: there are only numbers.
    let plan = unsafe { doors::dolomisc_frame_stats(payload_length, mtu) };
    result(plan.what, plan.refusal)?;
    Ok(FrameStats { frames: plan.frames, padding: plan.padding })
}
