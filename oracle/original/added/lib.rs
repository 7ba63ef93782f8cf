
// ---- Added behind the published lib.rs: the doors of the test copy.
pub mod door;
pub use crate::rx::door as rx_door;
