//! In place of the crate's cmp.rs: the trait that its boolean/cmp.rs implements.
use crate::{boolean::Boolean, eq::EqGadget, r1cs_var::R1CSVar};
use ark_ff::PrimeField;
use ark_relations::r1cs::SynthesisError;

pub trait CmpGadget<F: PrimeField>: R1CSVar<F> + EqGadget<F> {
    fn is_ge(&self, other: &Self) -> Result<Boolean<F>, SynthesisError>;
}
