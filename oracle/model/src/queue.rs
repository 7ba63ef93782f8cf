//! "The queue is ordered by CAN ID, smallest first": a list kept in that order.
use crate::Reading;
use plain::Frame;

pub struct Queue {
    reading: Reading,
    pub capacity: usize,
    pub frames: Vec<Frame>,
}

impl Queue {
    pub fn new(reading: Reading, capacity: usize) -> Self {
        Queue { reading, capacity, frames: Vec::new() }
    }

    pub fn free(&self) -> usize {
        self.capacity - self.frames.len()
    }

    /// Refuses by 13.
    pub fn try_reserve(&self, frames: usize) -> Result<(), u8> {
        if frames > self.free() {
            Err(13)
        } else {
            Ok(())
        }
    }

    pub fn push_frame(&mut self, frame: Frame) -> Result<(), u8> {
        self.place(frame, self.reading != Reading::PushedInFront)
    }

    pub fn return_frame(&mut self, frame: Frame) -> Result<(), u8> {
        self.place(frame, self.reading == Reading::ReturnedBehind)
    }

    /// Behind its equals or in front of them. Refuses by 3, 1, 13.
    fn place(&mut self, frame: Frame, behind: bool) -> Result<(), u8> {
        if self.reading == Reading::FullBeforeLength {
            self.try_reserve(1)?;
        }
        if frame.bytes().len() > 64 {
            return Err(3);
        }
        if frame.id >= 1 << 29 {
            return Err(1);
        }
        if self.reading == Reading::EmptyFrameRefused && frame.bytes().is_empty() {
            return Err(2);
        }
        self.try_reserve(1)?;
        let key = |id: u32| if self.reading == Reading::PriorityAlone { id >> 26 } else { id };
        let ahead = |queued: &Frame| key(queued.id) < key(frame.id) || behind && key(queued.id) == key(frame.id);
        let at = self.frames.iter().take_while(|queued| ahead(queued)).count();
        self.frames.insert(at, frame);
        Ok(())
    }

    pub fn peek_frame(&mut self) -> Option<Frame> {
        if self.reading == Reading::PeekTakes {
            return self.pop_frame();
        }
        self.frames.first().copied()
    }

    pub fn pop_frame(&mut self) -> Option<Frame> {
        if self.frames.is_empty() {
            None
        } else {
            Some(self.frames.remove(0))
        }
    }
}
