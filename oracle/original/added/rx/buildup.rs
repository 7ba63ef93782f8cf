
// ---- Added behind the published rx/buildup.rs.
impl Buildup {
    pub(crate) fn probe(&self, stamp: u32, loopback: bool) -> (plain::Session, &[u8]) {
        let (expect_start, expect_toggle) = (self.expect_start, self.expect_toggle);
        let (crc, total) = (self.crc.get_crc(), self.payload_size);
        (plain::Session { stamp, loopback, expect_start, expect_toggle, crc, total }, &self.transfer)
    }
}
