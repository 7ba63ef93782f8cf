//! Stand-in for l0g: no log is kept.
#[macro_export]
macro_rules! debug {
    ($($said:tt)*) => {};
}
#[macro_export]
macro_rules! info {
    ($($said:tt)*) => {};
}
