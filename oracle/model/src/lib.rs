//! Document 01 in plain Rust, as short as can be and slow where that is plainer. It was written from the document's text alone. Each function takes a
//! `Reading`: `Reading::Right`, or one of the misreadings that the comparison must be able to find.
pub mod queue;
pub mod readings;
pub mod receive;
pub mod send;
pub mod tracker;
pub mod wire;

pub use queue::Queue;
pub use readings::{Reading, WRONG};
pub use receive::Receiver;
pub use send::Sender;
pub use tracker::Tracker;
