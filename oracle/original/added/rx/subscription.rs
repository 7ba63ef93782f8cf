
// ---- Added behind the published rx/subscription.rs.
impl Subscription {
    /// What is kept of a source, and its session's bytes.
    pub(crate) fn probe(&self, node: CanNodeId) -> (plain::Slot, &[u8]) {
        let state = self.states.get(node);
        let (session, bytes) = state.session.as_ref().map(|session| session.probe()).unzip();
        let last_time = state.last_transfer_time.map(|time| time.ticks());
        (plain::Slot { expected: state.expected_transfer_id.to_u8(), last_time, session }, bytes.unwrap_or(&[]))
    }
}
