use crate::{doors, limited, result, Frame, Header, Refusal, NODES};

/// What a subscription asks for.
#[derive(Clone, Copy, Debug, PartialEq, Eq, Hash)]
pub enum Port {
    /// Messages of a subject.
    Message {
        /// 0 to 8191.
        subject: u16,
    },
    /// Requests for a service of ours.
    Request {
        /// 0 to 511.
        service: u16,
        /// Our own node, 0 to 127.
        node: u8,
    },
    /// Responses to requests of ours.
    Response {
        /// 0 to 511.
        service: u16,
        /// Our own node, 0 to 127.
        node: u8,
    },
}

/// The bytes that the store of a subscription with this extent takes: a part for each of 128 sources.
pub const fn store_bytes(extent: usize) -> usize {
    NODES * extent
}

/// A transfer that is handed over, now and not again. Its payload is borrowed from the frame or from the subscription's store.
#[derive(Clone, Copy, Debug, PartialEq, Eq)]
pub struct Delivery<'a> {
    /// Of the transfer's last frame.
    pub header: Header,
    /// 0 to 31.
    pub transfer_id: u8,
    /// Of the transfer's first frame.
    pub stamp: u32,
    /// Of the transfer's first frame.
    pub loopback: bool,
    /// The payload, and zeros that were sent behind it, cut to the extent.
    pub payload: &'a [u8],
}

/// What a frame gave.
#[derive(Clone, Copy, Debug, PartialEq, Eq)]
pub enum Received<'a> {
    /// It completed a transfer.
    Delivered(Delivery<'a>),
    /// More frames must come, or the frame was a repeat.
    Nothing,
    /// It is of another kind, port or destination.
    NotOurs,
}

/// Puts the frames of one port back together, for 128 sources at once. It owns its store, as `Subscription<[u8; store_bytes(64)]>`, or borrows it, as
/// `Subscription<&mut [u8]>`; its slots, 2 KiB, lie within it.
///
/// A delivery borrows the subscription, so no frame can be taken before it is let go:
///
/// ```compile_fail
/// # use dolomisc::{store_bytes, Frame, Port, Subscription};
/// let mut scans = Subscription::new(Port::Message { subject: 256 }, 2_000_000, 64, [0; store_bytes(64)]).unwrap();
/// let first = scans.accept(Frame { stamp: 0, id: 0x1061_002A, loopback: false, data: &[7, 0xE0] });
/// let second = scans.accept(Frame { stamp: 0, id: 0x1061_002A, loopback: false, data: &[7, 0xE1] });
/// drop(first);
/// ```
pub struct Subscription<S> {
    settings: doors::Subscription,
    slots: doors::Slots,
    store: S,
}

impl<S: AsRef<[u8]> + AsMut<[u8]>> Subscription<S> {
    /// A subscription that has heard nothing. A transfer ID that comes again within `timeout` microseconds is a repeat; of each payload at most `extent` bytes are
    /// kept. Refuses by 12, 8, 7.
    pub fn new(port: Port, timeout: u32, extent: usize, store: S) -> Result<Self, Refusal> {
        let (kind, port, node) = match port {
            Port::Message { subject } => (doors::MESSAGE, subject, 0),
            Port::Request { service, node } => (doors::REQUEST, service, limited(node)),
            Port::Response { service, node } => (doors::RESPONSE, service, limited(node)),
        };
        let mut slots = doors::Slots { words: [[0; 4]; NODES] };
        // SAFETY: `slots` are whole slots.
        let made = unsafe { doors::dolomisc_subscription_new(kind, port, node, timeout, extent, &mut slots) };
        result(made.what, made.refusal)?;
        // Each frame would be refused; better at once.
        if store.as_ref().len() < store_bytes(extent) {
            return Err(Refusal::StoreTooSmall);
        }
        Ok(Subscription { settings: made.subscription, slots, store })
    }

    /// Takes a frame from the driver. Refuses by 7, 2, 3, 1, 4, or, if it is ours, by 5, 6.
    pub fn accept<'a>(&'a mut self, frame: Frame<'a>) -> Result<Received<'a>, Refusal> {
        let store = self.store.as_mut();
        // SAFETY: each pointer and its length are those of one slice, and what is written is borrowed as `&mut`.
        let got = unsafe {
            doors::dolomisc_subscription_accept(
                self.settings,
                &mut self.slots,
                store.as_mut_ptr(),
                store.len(),
                frame.marks(),
                frame.data.as_ptr(),
                frame.data.len(),
            )
        };
        match got.what {
            doors::DELIVERED => Ok(Received::Delivered(Delivery {
                header: Header::of(got.header),
                transfer_id: got.transfer_id,
                stamp: got.stamp,
                loopback: got.loopback != 0,
                payload: payload(got, frame.data, store),
            })),
            doors::NOTHING => Ok(Received::Nothing),
            doors::NOT_OURS => Ok(Received::NotOurs),
            _ => Err(Refusal::of(got.refusal)),
        }
    }

    /// The store, for whoever lent it.
    pub fn into_store(self) -> S {
        self.store
    }
}

fn payload<'a>(got: doors::Received, frame: &'a [u8], store: &'a [u8]) -> &'a [u8] {
    // SAFETY: each pointer and its length are those of one slice.
    let span = unsafe { doors::dolomisc_payload(got, frame.as_ptr(), frame.len(), store.as_ptr(), store.len()) };
    let memory = if span.memory == doors::IN_FRAME { frame } else { store };
    memory.get(span.start..).and_then(|from| from.get(..span.length)).unwrap_or(&[])
}
