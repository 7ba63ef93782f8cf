use crate::{doors, result};

pub struct Tracker(doors::Tracker);

impl Tracker {
    pub fn fresh() -> Self {
        let mut tracker = doors::Tracker { ids: [!0; 20] };
        // SAFETY: `tracker` is a whole tracker.
        unsafe { doors::dolomisc_tracker_new(&mut tracker) };
        Tracker(tracker)
    }

    /// A tracker with this row.
    pub fn with(ids: [u32; 20]) -> Self {
        Tracker(doors::Tracker { ids })
    }

    pub fn next_transfer_id(&mut self, destination: u8) -> Result<u8, u8> {
        // SAFETY: the tracker is whole, and borrowed as `&mut`.
        let given = unsafe { doors::dolomisc_tracker_next_transfer_id(&mut self.0, destination) };
        let answer = result(given.what, given.refusal);
        assert!(answer.is_ok() || given.transfer_id == 0, "a refusal with a transfer ID");
        answer.map(|()| given.transfer_id)
    }

    pub fn row(&self) -> [u32; 20] {
        self.0.ids
    }
}
