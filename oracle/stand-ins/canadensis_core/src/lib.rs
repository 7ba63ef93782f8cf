//! Stand-in for canadensis_core, as far as the original uses it: written from those uses and, for the CRC and the limits of the numbers, from the Cyphal
//! Specification.
use transport::Transport;

#[derive(Debug, PartialEq)]
pub struct OutOfMemoryError;
impl From<std::collections::TryReserveError> for OutOfMemoryError {
    fn from(_: std::collections::TryReserveError) -> Self {
        OutOfMemoryError
    }
}
#[derive(Debug, PartialEq)]
pub struct InvalidValue;
#[derive(Debug)]
pub enum ServiceSubscribeError<E> {
    Transport(E),
    Anonymous,
}

#[derive(Clone, Copy, Debug)]
pub enum Priority {
    Exceptional,
    Immediate,
    Fast,
    High,
    Nominal,
    Low,
    Slow,
    Optional,
}
impl TryFrom<u8> for Priority {
    type Error = InvalidValue;
    fn try_from(value: u8) -> Result<Self, InvalidValue> {
        use Priority::*;
        let all = [Exceptional, Immediate, Fast, High, Nominal, Low, Slow, Optional];
        all.get(usize::from(value)).copied().ok_or(InvalidValue)
    }
}

/// A subject or a service.
#[derive(Clone, Copy, Debug, PartialEq, Eq)]
pub struct PortId(u16);

macro_rules! number {
    ($name:ident, $greatest:expr) => {
        #[derive(Clone, Copy, Debug)]
        pub struct $name(pub u16);
        impl TryFrom<u16> for $name {
            type Error = InvalidValue;
            fn try_from(value: u16) -> Result<Self, InvalidValue> {
                if value <= $greatest {
                    Ok(Self(value))
                } else {
                    Err(InvalidValue)
                }
            }
        }
        impl From<$name> for PortId {
            fn from(id: $name) -> PortId {
                PortId(id.0)
            }
        }
        impl TryFrom<PortId> for $name {
            type Error = InvalidValue;
            fn try_from(port: PortId) -> Result<Self, InvalidValue> {
                Self::try_from(port.0)
            }
        }
        impl From<$name> for u16 {
            fn from(id: $name) -> u16 {
                id.0
            }
        }
        impl From<$name> for u32 {
            fn from(id: $name) -> u32 {
                id.0.into()
            }
        }
    };
}
number!(SubjectId, 8191);
number!(ServiceId, 511);

pub trait TransferIdTracker<T: Transport> {
    fn next_transfer_id(&mut self, destination: T::NodeId) -> Result<T::TransferId, OutOfMemoryError>;
}

pub mod nb {
    #[derive(Debug, PartialEq)]
    pub enum Error<E> {
        Other(E),
        WouldBlock,
    }
    impl<E> Error<E> {
        pub fn map<T>(self, op: impl FnOnce(E) -> T) -> Error<T> {
            match self {
                Error::Other(e) => Error::Other(op(e)),
                Error::WouldBlock => Error::WouldBlock,
            }
        }
    }
    pub type Result<T, E> = core::result::Result<T, Error<E>>;
}

pub mod time {
    #[derive(Clone, Copy, Debug, PartialEq, Eq, PartialOrd, Ord)]
    pub struct Microseconds32(u32);
    impl Microseconds32 {
        pub const fn from_ticks(ticks: u32) -> Self {
            Self(ticks)
        }
        pub const fn ticks(self) -> u32 {
            self.0
        }
        /// The time since another, with wrapping; none where the difference is 2^31 or more, which is a time that went back.
        /// The original's own is not printed: document 01 decides.
        pub fn checked_duration_since(self, other: Self) -> Option<MicrosecondDuration32> {
            let difference = self.0.wrapping_sub(other.0);
            if difference < 1 << 31 {
                Some(MicrosecondDuration32(difference))
            } else {
                None
            }
        }
    }
    #[derive(Clone, Copy, Debug, PartialEq, Eq, PartialOrd, Ord)]
    pub struct MicrosecondDuration32(u32);
    impl MicrosecondDuration32 {
        pub const fn from_ticks(ticks: u32) -> Self {
            Self(ticks)
        }
    }
    impl core::ops::Add<MicrosecondDuration32> for Microseconds32 {
        type Output = Self;
        fn add(self, more: MicrosecondDuration32) -> Self {
            Self(self.0.wrapping_add(more.0))
        }
    }
    pub trait Clock {
        fn now(&mut self) -> Microseconds32;
    }
}

pub mod subscription {
    pub enum Subscription {
        Message(crate::SubjectId),
        Request(crate::ServiceId),
        Response(crate::ServiceId),
    }
}

pub mod crc {
    // What eight bits do to the register's high byte.
    const fn by_bits(byte: u16) -> u16 {
        let mut crc = byte << 8;
        let mut bit = 0;
        while bit < 8 {
            crc = if crc & 0x8000 != 0 { crc << 1 ^ 0x1021 } else { crc << 1 };
            bit += 1;
        }
        crc
    }
    #[cfg(not(feature = "bitwise"))]
    const fn table() -> [u16; 256] {
        let mut table = [0; 256];
        let mut byte = 0;
        while byte < 256 {
            table[byte] = by_bits(byte as u16);
            byte += 1;
        }
        table
    }
    #[cfg(not(feature = "bitwise"))]
    static TABLE: [u16; 256] = table();
    #[cfg(not(feature = "bitwise"))]
    fn eight_bits(byte: u16) -> u16 {
        TABLE[usize::from(byte)]
    }
    #[cfg(feature = "bitwise")]
    fn eight_bits(byte: u16) -> u16 {
        by_bits(byte)
    }

    /// CRC-16/CCITT-FALSE, by a table or bit by bit.
    #[derive(Debug)]
    pub struct Crc16CcittFalse(u16);
    impl Crc16CcittFalse {
        #[inline]
        pub fn new() -> Self {
            Self(0xffff)
        }
        #[inline]
        pub fn digest(&mut self, byte: u8) {
            self.0 = self.0 << 8 ^ eight_bits(self.0 >> 8 ^ u16::from(byte));
        }
        #[inline]
        pub fn digest_bytes(&mut self, bytes: &[u8]) {
            bytes.iter().for_each(|byte| self.digest(*byte));
        }
        #[inline]
        pub fn get_crc(&self) -> u16 {
            self.0
        }
    }
}

pub mod transport {
    use crate::time::MicrosecondDuration32;
    use crate::transfer::Transfer;
    use crate::{nb, ServiceId, ServiceSubscribeError, SubjectId};

    pub trait TransferId {
        fn increment(self) -> Self;
    }
    pub trait Transport {
        type NodeId;
        type TransferId;
        type Priority;
    }
    pub trait Transmitter<C> {
        type Transport: Transport;
        type Driver;
        type Error;
        fn push<A: AsRef<[u8]>>(&mut self, transfer: Transfer<A, Self::Transport>, clock: &mut C, driver: &mut Self::Driver) -> nb::Result<(), Self::Error>;
        fn flush(&mut self, clock: &mut C, driver: &mut Self::Driver) -> nb::Result<(), Self::Error>;
        fn mtu(&self) -> usize;
    }
    pub trait Receiver<C> {
        type Transport: Transport;
        type Driver;
        type Error;
        fn receive(&mut self, clock: &mut C, driver: &mut Self::Driver) -> Result<Option<Transfer<Vec<u8>, Self::Transport>>, Self::Error>;
        fn subscribe_message(
            &mut self,
            subject: SubjectId,
            payload_size_max: usize,
            timeout: MicrosecondDuration32,
            driver: &mut Self::Driver,
        ) -> Result<(), Self::Error>;
        fn unsubscribe_message(&mut self, subject: SubjectId, driver: &mut Self::Driver);
        fn subscribe_request(
            &mut self,
            service: ServiceId,
            payload_size_max: usize,
            timeout: MicrosecondDuration32,
            driver: &mut Self::Driver,
        ) -> Result<(), ServiceSubscribeError<Self::Error>>;
        fn unsubscribe_request(&mut self, service: ServiceId, driver: &mut Self::Driver);
        fn subscribe_response(
            &mut self,
            service: ServiceId,
            payload_size_max: usize,
            timeout: MicrosecondDuration32,
            driver: &mut Self::Driver,
        ) -> Result<(), ServiceSubscribeError<Self::Error>>;
        fn unsubscribe_response(&mut self, service: ServiceId, driver: &mut Self::Driver);
        fn set_id(&mut self, id: Option<<Self::Transport as Transport>::NodeId>);
        fn subscribers(&self) -> impl Iterator<Item = SubjectId>;
        fn servers(&self) -> impl Iterator<Item = ServiceId>;
    }
}

pub mod transfer {
    use crate::time::Microseconds32;
    use crate::transport::Transport;
    use crate::{PortId, ServiceId, SubjectId};

    pub struct MessageHeader<T: Transport> {
        pub timestamp: Microseconds32,
        pub transfer_id: T::TransferId,
        pub priority: T::Priority,
        pub subject: SubjectId,
        pub source: Option<T::NodeId>,
    }
    pub struct ServiceHeader<T: Transport> {
        pub timestamp: Microseconds32,
        pub transfer_id: T::TransferId,
        pub priority: T::Priority,
        pub service: ServiceId,
        pub source: T::NodeId,
        pub destination: T::NodeId,
    }
    pub enum Header<T: Transport> {
        Message(MessageHeader<T>),
        Request(ServiceHeader<T>),
        Response(ServiceHeader<T>),
    }
    macro_rules! of_either {
        ($header:expr, $h:ident => $value:expr) => {
            match $header {
                Header::Message($h) => $value,
                Header::Request($h) | Header::Response($h) => $value,
            }
        };
    }
    impl<T: Transport> Header<T> {
        pub fn priority(&self) -> &T::Priority {
            of_either!(self, h => &h.priority)
        }
        pub fn transfer_id(&self) -> &T::TransferId {
            of_either!(self, h => &h.transfer_id)
        }
        pub fn timestamp(&self) -> Microseconds32 {
            of_either!(self, h => h.timestamp)
        }
        pub fn set_timestamp(&mut self, timestamp: Microseconds32) {
            of_either!(self, h => h.timestamp = timestamp)
        }
        pub fn port_id(&self) -> PortId {
            match self {
                Header::Message(h) => h.subject.into(),
                Header::Request(h) | Header::Response(h) => h.service.into(),
            }
        }
        pub fn source(&self) -> Option<&T::NodeId> {
            match self {
                Header::Message(h) => h.source.as_ref(),
                Header::Request(h) | Header::Response(h) => Some(&h.source),
            }
        }
    }
    pub struct Transfer<A, T: Transport> {
        pub header: Header<T>,
        pub loopback: bool,
        pub payload: A,
    }
}
