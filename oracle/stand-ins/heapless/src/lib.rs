//! Stand-in for heapless: lists with a greatest length. A `Vec` holds its items in itself.
use std::collections::VecDeque;
use std::fmt;
use std::mem::MaybeUninit;

#[derive(Clone, Copy)]
pub struct Vec<T: Copy, const N: usize> {
    length: usize,
    items: [MaybeUninit<T>; N],
}

impl<T: Copy, const N: usize> Default for Vec<T, N> {
    fn default() -> Self {
        Self::new()
    }
}
impl<T: Copy, const N: usize> Vec<T, N> {
    #[inline]
    pub fn new() -> Self {
        Self { length: 0, items: [MaybeUninit::uninit(); N] }
    }
    #[inline]
    pub fn push(&mut self, item: T) -> Result<(), T> {
        if self.length == N {
            return Err(item);
        }
        self.items[self.length] = MaybeUninit::new(item);
        self.length += 1;
        Ok(())
    }
    #[inline]
    pub fn from_slice(items: &[T]) -> Result<Self, ()> {
        if items.len() > N {
            return Err(());
        }
        let mut list = Self::new();
        // The items fit, and no list is its own source.
        unsafe { std::ptr::copy_nonoverlapping(items.as_ptr(), list.items.as_mut_ptr().cast(), items.len()) };
        list.length = items.len();
        Ok(list)
    }
}
impl<T: Copy, const N: usize> std::ops::Deref for Vec<T, N> {
    type Target = [T];
    #[inline]
    fn deref(&self) -> &[T] {
        // The first items, as many as the length says, have been written.
        unsafe { std::slice::from_raw_parts(self.items.as_ptr().cast(), self.length) }
    }
}
impl<T: Copy + PartialEq, const N: usize> PartialEq for Vec<T, N> {
    fn eq(&self, other: &Self) -> bool {
        **self == **other
    }
}
impl<T: Copy + fmt::Debug, const N: usize> fmt::Debug for Vec<T, N> {
    fn fmt(&self, f: &mut fmt::Formatter) -> fmt::Result {
        (**self).fmt(f)
    }
}

pub struct Deque<T, const N: usize>(VecDeque<T>);
impl<T, const N: usize> Deque<T, N> {
    pub fn new() -> Self {
        Self(VecDeque::new())
    }
    pub fn push_back(&mut self, item: T) -> Result<(), T> {
        if self.0.len() == N {
            return Err(item);
        }
        self.0.push_back(item);
        Ok(())
    }
    pub fn pop_front(&mut self) -> Option<T> {
        self.0.pop_front()
    }
}
