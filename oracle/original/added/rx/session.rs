
// ---- Added behind the published rx/session.rs.
impl Session {
    pub(crate) fn probe(&self) -> (plain::Session, &[u8]) {
        self.buildup.probe(self.transfer_timestamp.ticks(), self.loopback)
    }
}
