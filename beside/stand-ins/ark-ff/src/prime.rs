use crate::{BigInteger, Field, One, PrimeField, Zero};
use std::fmt::{self, Debug, Display};
use std::ops::{Add, AddAssign, Div, DivAssign, Mul, MulAssign, Neg, Sub, SubAssign};

/// A number of one limb.
#[derive(Copy, Clone, PartialEq, Eq, PartialOrd, Ord, Debug, Default, Hash)]
pub struct Limb([u64; 1]);

impl AsRef<[u64]> for Limb {
    fn as_ref(&self) -> &[u64] {
        &self.0
    }
}

impl AsMut<[u64]> for Limb {
    fn as_mut(&mut self) -> &mut [u64] {
        &mut self.0
    }
}

impl BigInteger for Limb {
    const NUM_LIMBS: usize = 1;

    fn get_bit(&self, i: usize) -> bool {
        i < 64 && self.0[0] >> i & 1 == 1
    }

    fn to_bytes_le(&self) -> Vec<u8> {
        self.0[0].to_le_bytes().to_vec()
    }
}

/// An element of the field of a prime order P, by its remainder.
#[derive(Copy, Clone, PartialEq, Eq, PartialOrd, Ord, Hash, Default)]
pub struct Fp<const P: u32>(u32);

impl<const P: u32> Fp<P> {
    const CHARACTERISTIC: [u64; 1] = [P as u64];

    fn reduced(number: u64) -> Self {
        Fp((number % P as u64) as u32)
    }

    fn power(self, exponent: u32) -> Self {
        let bits = (0..32).rev().map(|i| exponent >> i & 1 == 1);
        bits.fold(Self::one(), |power, bit| {
            let square = power * power;
            if bit {
                square * self
            } else {
                square
            }
        })
    }
}

impl<const P: u32> From<i64> for Fp<P> {
    fn from(number: i64) -> Self {
        Self::reduced((number as i128).rem_euclid(P as i128) as u64)
    }
}

impl<const P: u32> Debug for Fp<P> {
    fn fmt(&self, f: &mut fmt::Formatter<'_>) -> fmt::Result {
        Display::fmt(self, f)
    }
}

impl<const P: u32> Display for Fp<P> {
    fn fmt(&self, f: &mut fmt::Formatter<'_>) -> fmt::Result {
        write!(f, "{}", self.0)
    }
}

macro_rules! operator {
    ($trait:ident, $fn:ident, $assign_trait:ident, $assign_fn:ident, |$a:ident, $b:ident| $result:expr) => {
        impl<const P: u32> $trait for Fp<P> {
            type Output = Self;

            fn $fn(self, other: Self) -> Self {
                let ($a, $b) = (self, other);
                $result
            }
        }

        impl<const P: u32> $trait<&Self> for Fp<P> {
            type Output = Self;

            fn $fn(self, other: &Self) -> Self {
                $trait::$fn(self, *other)
            }
        }

        impl<const P: u32> $assign_trait for Fp<P> {
            fn $assign_fn(&mut self, other: Self) {
                *self = $trait::$fn(*self, other);
            }
        }

        impl<const P: u32> $assign_trait<&Self> for Fp<P> {
            fn $assign_fn(&mut self, other: &Self) {
                *self = $trait::$fn(*self, *other);
            }
        }
    };
}

operator!(Add, add, AddAssign, add_assign, |a, b| Self::reduced(
    a.0 as u64 + b.0 as u64
));
operator!(Sub, sub, SubAssign, sub_assign, |a, b| a + -b);
operator!(Mul, mul, MulAssign, mul_assign, |a, b| Self::reduced(
    a.0 as u64 * b.0 as u64
));
operator!(Div, div, DivAssign, div_assign, |a, b| a * b
    .inverse()
    .expect("division by zero"));

impl<const P: u32> Neg for Fp<P> {
    type Output = Self;

    fn neg(self) -> Self {
        Self::reduced(P as u64 - self.0 as u64)
    }
}

impl<const P: u32> Zero for Fp<P> {
    fn zero() -> Self {
        Fp(0)
    }

    fn is_zero(&self) -> bool {
        self.0 == 0
    }
}

impl<const P: u32> One for Fp<P> {
    fn one() -> Self {
        Fp(1)
    }

    fn is_one(&self) -> bool {
        self.0 == 1
    }
}

impl<const P: u32> From<u128> for Fp<P> {
    fn from(number: u128) -> Self {
        Self::reduced((number % P as u128) as u64)
    }
}

macro_rules! from_unsigned {
    ($($type:ty)*) => {
        $(
            impl<const P: u32> From<$type> for Fp<P> {
                fn from(number: $type) -> Self {
                    Self::reduced(number as u64)
                }
            }
        )*
    };
}

from_unsigned!(u64 u32 u16 u8 bool);

impl<const P: u32> Field for Fp<P> {
    fn characteristic() -> &'static [u64] {
        &Self::CHARACTERISTIC
    }

    fn double(&self) -> Self {
        *self + *self
    }

    fn double_in_place(&mut self) -> &mut Self {
        *self = self.double();
        self
    }

    fn square(&self) -> Self {
        *self * *self
    }

    fn inverse(&self) -> Option<Self> {
        (!self.is_zero()).then(|| self.power(P - 2))
    }

    fn frobenius_map_in_place(&mut self, _power: usize) {}
}

impl<const P: u32> PrimeField for Fp<P> {
    type BigInt = Limb;

    const MODULUS: Limb = Limb([P as u64]);
    const MODULUS_MINUS_ONE_DIV_TWO: Limb = Limb([(P as u64 - 1) / 2]);
    const MODULUS_BIT_SIZE: u32 = P.ilog2() + 1;

    fn into_bigint(self) -> Limb {
        Limb([self.0 as u64])
    }

    fn from_le_bytes_mod_order(bytes: &[u8]) -> Self {
        let highest_first = bytes.iter().rev();
        highest_first.fold(Self::zero(), |number, byte| {
            number * Self::from(256u32) + Self::from(*byte)
        })
    }
}
