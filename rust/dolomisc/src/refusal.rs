use core::fmt;

/// Why something was refused. Each has the number that the tender's document 01 gives it.
#[derive(Clone, Copy, Debug, PartialEq, Eq, Hash)]
#[repr(u8)]
#[non_exhaustive]
pub enum Refusal {
    /// A CAN ID of 2^29 or more.
    CanId = 1,
    /// A received frame with no bytes.
    NoBytes = 2,
    /// A frame over 64 bytes.
    FrameTooLong = 3,
    /// A reserved bit is set in a CAN ID.
    ReservedBit = 4,
    /// A frame inside a transfer whose start did not come.
    NoSession = 5,
    /// A transfer ended with a wrong CRC, or with less than a CRC.
    Residue = 6,
    /// A store of fewer bytes than 128 times the extent.
    StoreTooSmall = 7,
    /// An extent over 1,024.
    ExtentTooLarge = 8,
    /// An MTU that is neither 8 nor 64.
    Mtu = 9,
    /// A payload over 1,024 bytes.
    PayloadTooLong = 10,
    /// An anonymous payload that does not fit one frame.
    AnonymousTooLong = 11,
    /// A field over its limit, or a service transfer with no source.
    Field = 12,
    /// Fewer free places than frames needed.
    NoPlace = 13,
    /// A queue capacity over 256.
    CapacityTooLarge = 14,
}

impl Refusal {
    const ALL: [(Refusal, &'static str); 14] = [
        (Refusal::CanId, "a CAN ID of 2^29 or more"),
        (Refusal::NoBytes, "a received frame with no bytes"),
        (Refusal::FrameTooLong, "a frame over 64 bytes"),
        (Refusal::ReservedBit, "a reserved bit is set in a CAN ID"),
        (Refusal::NoSession, "a frame inside a transfer whose start did not come"),
        (Refusal::Residue, "a transfer ended with a wrong CRC, or with less than a CRC"),
        (Refusal::StoreTooSmall, "a store of fewer bytes than 128 times the extent"),
        (Refusal::ExtentTooLarge, "an extent over 1,024"),
        (Refusal::Mtu, "an MTU that is neither 8 nor 64"),
        (Refusal::PayloadTooLong, "a payload over 1,024 bytes"),
        (Refusal::AnonymousTooLong, "an anonymous payload that does not fit one frame"),
        (Refusal::Field, "a field over its limit, or a service transfer with no source"),
        (Refusal::NoPlace, "fewer free places than frames needed"),
        (Refusal::CapacityTooLarge, "a queue capacity over 256"),
    ];

    /// The refusal's number in the tender's document 01.
    pub fn number(self) -> u8 {
        self as u8
    }

    /// The refusal of a number that the archive answered, which are those of `ALL` by its proof.
    pub(crate) fn of(number: u8) -> Refusal {
        Refusal::ALL.iter().map(|row| row.0).find(|refusal| refusal.number() == number).unwrap_or(Refusal::Field)
    }
}

impl fmt::Display for Refusal {
    fn fmt(&self, f: &mut fmt::Formatter<'_>) -> fmt::Result {
        let text = Refusal::ALL[self.number() as usize - 1].1;
        write!(f, "refusal {}: {}", self.number(), text)
    }
}

impl core::error::Error for Refusal {}
