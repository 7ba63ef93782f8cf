//! Stand-in for bitvec, as far as the original's tracker uses it: a row of bits of which a part is read and written as a number, its first bit the lowest. So
//! does `LocalBits` on a machine that puts the low byte first. Each bit is kept as a `bool`, so a part is a plain slice.
use std::marker::PhantomData;
use std::ops::{Index, IndexMut, Range};

const BITS: usize = 640;

pub struct LocalBits;

pub struct BitArray<A, O> {
    bits: [bool; BITS],
    _of: PhantomData<(A, O)>,
}

impl BitArray<[u32; 20], LocalBits> {
    pub const ZERO: Self = BitArray { bits: [false; BITS], _of: PhantomData };
}

impl<A, O> Index<Range<usize>> for BitArray<A, O> {
    type Output = [bool];
    fn index(&self, range: Range<usize>) -> &[bool] {
        &self.bits[range]
    }
}

impl<A, O> IndexMut<Range<usize>> for BitArray<A, O> {
    fn index_mut(&mut self, range: Range<usize>) -> &mut [bool] {
        &mut self.bits[range]
    }
}

pub trait BitField {
    fn load<N: From<u8>>(&self) -> N;
    fn store<N: Into<u8>>(&mut self, value: N);
}

impl BitField for [bool] {
    fn load<N: From<u8>>(&self) -> N {
        N::from(self.iter().rev().fold(0, |number, bit| number << 1 | u8::from(*bit)))
    }
    fn store<N: Into<u8>>(&mut self, value: N) {
        let value = value.into();
        self.iter_mut().enumerate().for_each(|(at, bit)| *bit = value >> at & 1 == 1);
    }
}

pub mod prelude {
    pub use crate::{BitArray, BitField, LocalBits};
}
