//! Stand-in for fallible_collections, over the fallible reserving of the standard library.
pub use std::collections::TryReserveError;

pub trait FallibleVec<T> {
    fn try_push(&mut self, item: T) -> Result<(), TryReserveError>;
    fn try_extend_from_slice(&mut self, items: &[T]) -> Result<(), TryReserveError>
    where
        T: Clone;
}
impl<T> FallibleVec<T> for Vec<T> {
    fn try_push(&mut self, item: T) -> Result<(), TryReserveError> {
        self.try_reserve(1)?;
        self.push(item);
        Ok(())
    }
    fn try_extend_from_slice(&mut self, items: &[T]) -> Result<(), TryReserveError>
    where
        T: Clone,
    {
        self.try_reserve(items.len())?;
        self.extend_from_slice(items);
        Ok(())
    }
}

pub trait FallibleBox<T>: Sized {
    fn try_new(item: T) -> Result<Self, TryReserveError>;
}
impl<T> FallibleBox<T> for Box<T> {
    fn try_new(item: T) -> Result<Self, TryReserveError> {
        Ok(Box::new(item))
    }
}
