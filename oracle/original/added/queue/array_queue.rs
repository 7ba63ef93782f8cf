
// ---- Added behind the published queue/array_queue.rs.
impl<const N: usize> ArrayQueue<N> {
    /// The frames in their order.
    pub fn probe(&self) -> impl Iterator<Item = &Frame> {
        (0..self.length).map(|at| &self.items[(self.head + at) % N])
    }
}
