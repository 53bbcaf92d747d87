//! A stand-in for ark_ff: the traits that the crate's bits and numbers use, and prime fields below 2^32.

mod bits;
mod prime;

pub use bits::{BitIteratorBE, BitIteratorLE};
pub use prime::{Fp, Limb};

use std::fmt::{Debug, Display};
use std::hash::Hash;
use std::ops::{Add, AddAssign, Div, DivAssign, Mul, MulAssign, Neg, Sub, SubAssign};

pub mod prelude {
    pub use crate::{BigInteger, Field, One, PrimeField, Zero};
}

pub trait Zero: Sized + Add<Self, Output = Self> {
    fn zero() -> Self;
    fn is_zero(&self) -> bool;
}

pub trait One: Sized + Mul<Self, Output = Self> {
    fn one() -> Self;
    fn is_one(&self) -> bool;
}

pub trait Field:
    'static
    + Copy
    + Debug
    + Display
    + Default
    + Send
    + Sync
    + Ord
    + Hash
    + Zero
    + One
    + Neg<Output = Self>
    + Sub<Self, Output = Self>
    + Div<Self, Output = Self>
    + AddAssign<Self>
    + SubAssign<Self>
    + MulAssign<Self>
    + DivAssign<Self>
    + for<'a> Add<&'a Self, Output = Self>
    + for<'a> Sub<&'a Self, Output = Self>
    + for<'a> Mul<&'a Self, Output = Self>
    + for<'a> Div<&'a Self, Output = Self>
    + for<'a> AddAssign<&'a Self>
    + for<'a> SubAssign<&'a Self>
    + for<'a> MulAssign<&'a Self>
    + for<'a> DivAssign<&'a Self>
    + From<u128>
    + From<u64>
    + From<u32>
    + From<u16>
    + From<u8>
    + From<bool>
{
    /// The characteristic in limbs of 64 bits, the lowest first.
    fn characteristic() -> &'static [u64];
    fn double(&self) -> Self;
    fn double_in_place(&mut self) -> &mut Self;
    fn square(&self) -> Self;
    fn inverse(&self) -> Option<Self>;
    fn frobenius_map_in_place(&mut self, power: usize);
}

/// A natural number in limbs of 64 bits, the lowest first.
pub trait BigInteger:
    Copy + Debug + Default + Ord + Send + Sync + AsRef<[u64]> + AsMut<[u64]> + 'static
{
    const NUM_LIMBS: usize;

    /// The bit at a place, counted from the lowest; beyond the limbs there are zeros.
    fn get_bit(&self, i: usize) -> bool;
    fn to_bytes_le(&self) -> Vec<u8>;
}

pub trait PrimeField: Field {
    type BigInt: BigInteger;

    const MODULUS: Self::BigInt;
    const MODULUS_MINUS_ONE_DIV_TWO: Self::BigInt;
    const MODULUS_BIT_SIZE: u32;

    fn into_bigint(self) -> Self::BigInt;
    fn from_le_bytes_mod_order(bytes: &[u8]) -> Self;
}
