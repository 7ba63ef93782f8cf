//! The Cyphal/CAN transfer layer of student spectrophotometers: it cuts transfers into CAN frames, queues the frames by priority, and puts frames from 128
//! sources back together, each transfer handed over exactly once.
//!
//! The work is done by `libdolomisc.a`, which is written in Rattle and proved; these are safe types around it, with no heap, no globals and no dependencies.
//! It replaces the sending and receiving of canadensis_can 0.6.0.
//!
//! ```
//! use dolomisc::{store_bytes, Frame, Header, Place, Port, Queue, Received, Subscription, Transfer, Transmitter};
//!
//! # fn main() -> Result<(), dolomisc::Refusal> {
//! // The detector: node 42 sends a dark scan under subject 256, over CAN FD.
//! let mut queue = Queue::new([Place::EMPTY; 16])?;
//! let mut transmitter = Transmitter::new(64);
//! let header = Header::Message { priority: 4, subject: 256, source: Some(42) };
//! let dark = [7; 100];
//! transmitter.push(&mut queue, &Transfer { header, transfer_id: 0, stamp: 1_000, loopback: false }, &dark)?;
//!
//! // The display: it keeps 100 bytes of each scan.
//! let mut scans = Subscription::new(Port::Message { subject: 256 }, 2_000_000, 100, [0; store_bytes(100)])?;
//! let mut delivered = 0;
//! while let Some(frame) = queue.pop_frame() {
//!     match scans.accept(frame.as_frame())? {
//!         Received::Delivered(scan) => {
//!             assert_eq!((scan.header, scan.payload), (header, &dark[..]));
//!             delivered += 1;
//!         }
//!         Received::Nothing => {}
//!         Received::NotOurs => {}
//!     }
//! }
//! assert_eq!(delivered, 1);
//! # Ok(())
//! # }
//! ```
#![no_std]
#![warn(missing_docs)]

mod doors;
mod queue;
mod receive;
mod refusal;
mod send;

pub use doors::Place;
pub use queue::{Frame, OwnedFrame, Queue};
pub use receive::{store_bytes, Delivery, Port, Received, Subscription};
pub use refusal::Refusal;
pub use send::{frame_stats, FrameStats, Tracker, Transfer, Transmitter};

/// The number of sources, which are numbered from 0 on.
pub const NODES: usize = 128;

/// Who sends a transfer, to which port, and how urgent it is: priority 0 to 7, the smallest first; subject 0 to 8191; service 0 to 511; node 0 to 127. Any number
/// can stand here; one over its limit is refused where the header is used.
#[derive(Clone, Copy, Debug, PartialEq, Eq, Hash)]
pub enum Header {
    /// To whoever subscribes to the subject.
    Message {
        /// 0 is the most urgent.
        priority: u8,
        /// What the message is about.
        subject: u16,
        /// None of an anonymous message.
        source: Option<u8>,
    },
    /// To a service of one node.
    Request(Service),
    /// The answer to a request.
    Response(Service),
}

/// The header of a request or a response.
#[derive(Clone, Copy, Debug, PartialEq, Eq, Hash)]
pub struct Service {
    /// 0 is the most urgent.
    pub priority: u8,
    /// Which service.
    pub service: u16,
    /// Who sends.
    pub source: u8,
    /// To whom.
    pub destination: u8,
}

impl Header {
    fn told(self) -> doors::Header {
        let service = |kind, s: Service| doors::Header { port: s.service, kind, priority: s.priority, source: s.source, destination: s.destination };
        match self {
            // A node that is not there must not be taken for an anonymous source.
            Header::Message { priority, subject, source } => doors::Header {
                port: subject,
                kind: doors::MESSAGE,
                priority,
                source: source.map_or(doors::NO_NODE, limited),
                destination: doors::NO_NODE,
            },
            Header::Request(s) => service(doors::REQUEST, s),
            Header::Response(s) => service(doors::RESPONSE, s),
        }
    }

    fn of(flat: doors::Header) -> Header {
        let service = Service { priority: flat.priority, service: flat.port, source: flat.source, destination: flat.destination };
        match flat.kind {
            doors::REQUEST => Header::Request(service),
            doors::RESPONSE => Header::Response(service),
            _ => Header::Message { priority: flat.priority, subject: flat.port, source: (flat.source != doors::NO_NODE).then_some(flat.source) },
        }
    }
}

/// A node's number, or one over the limit that is not the mark of "none".
fn limited(node: u8) -> u8 {
    node.min(doors::NO_NODE - 1)
}

/// Done, or why not.
fn result(what: u8, refusal: u8) -> Result<(), Refusal> {
    if what == doors::DONE {
        Ok(())
    } else {
        Err(Refusal::of(refusal))
    }
}
