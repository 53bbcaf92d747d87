//! In place of the crate's bytes, of which no command makes any: as much as the source asks for.
use crate::boolean::Boolean;
use ark_ff::Field;

#[derive(Clone, Debug)]
pub struct UInt8<F: Field> {
    pub bits: Vec<Boolean<F>>,
}

impl<F: Field> UInt8<F> {
    pub fn constant_vec(values: &[u8]) -> Vec<Self> {
        values.iter().map(|byte| Self::constant(*byte)).collect()
    }

    pub fn constant(byte: u8) -> Self {
        let bits = (0..8).map(|i| Boolean::constant(byte >> i & 1 == 1));
        UInt8 {
            bits: bits.collect(),
        }
    }

    pub fn from_bits_le(bits: &[Boolean<F>]) -> Self {
        UInt8 {
            bits: bits.to_vec(),
        }
    }
}
