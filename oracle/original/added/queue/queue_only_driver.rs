
// ---- Added behind the published queue/queue_only_driver.rs.
impl<const TC: usize, const RC: usize> QueueOnlyDriver<TC, RC> {
    /// The queue of frames to be sent.
    pub fn probe(&mut self) -> &mut ArrayQueue<TC> {
        &mut self.tx_queue
    }
}
