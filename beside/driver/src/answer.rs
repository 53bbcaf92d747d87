//! What an accepted command gives back.
use ark_ff::PrimeField;
use ark_r1cs_std::boolean::Boolean;
use ark_r1cs_std::fields::fp::FpVar;

#[derive(Clone)]
pub enum Answer<F: PrimeField> {
    Bit(Boolean<F>),
    Number(FpVar<F>),
}

pub fn bits<F: PrimeField>(bits: Vec<Boolean<F>>) -> Vec<Answer<F>> {
    bits.into_iter().map(Answer::Bit).collect()
}
