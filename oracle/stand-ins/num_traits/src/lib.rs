//! Stand-in for num_traits.
pub trait Bounded {
    fn min_value() -> Self;
    fn max_value() -> Self;
}
