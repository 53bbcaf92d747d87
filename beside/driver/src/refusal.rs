//! Why a command is not accepted.
use ark_relations::r1cs::SynthesisError;
use std::fmt;

#[derive(Clone, Copy, Debug, PartialEq, Eq)]
pub enum Refusal {
    /// A number that says why, and the layer that found out.
    Numbered(u8, u8),
    /// An error of the crate for which there is no number.
    Other(SynthesisError),
    Panic,
}

impl Refusal {
    pub const UNKNOWN: Refusal = Refusal::Numbered(1, 1);
    pub const OPERAND: Refusal = Refusal::Numbered(2, 1);
    pub const LENGTH: Refusal = Refusal::Numbered(3, 1);
    pub const BOOK_FULL: Refusal = Refusal::Numbered(11, 1);
    pub const VARIABLES_FULL: Refusal = Refusal::Numbered(8, 3);
    pub const TERMS_FULL: Refusal = Refusal::Numbered(9, 3);
    pub const ROWS_FULL: Refusal = Refusal::Numbered(10, 3);

    /// What an error of the crate is called; a missing value is the system's refusal where the system asked for it.
    pub fn of_error(error: SynthesisError, value_missed: bool) -> Refusal {
        match error {
            SynthesisError::AssignmentMissing if value_missed => Refusal::Numbered(5, 3),
            SynthesisError::AssignmentMissing => Refusal::Numbered(5, 2),
            SynthesisError::Unsatisfiable => Refusal::Numbered(6, 2),
            SynthesisError::MissingCS => Refusal::Numbered(7, 2),
            other => Refusal::Other(other),
        }
    }
}

impl fmt::Display for Refusal {
    fn fmt(&self, f: &mut fmt::Formatter<'_>) -> fmt::Result {
        match self {
            Refusal::Numbered(number, layer) => write!(f, "{number} {layer}"),
            Refusal::Other(error) => write!(f, "error {error}"),
            Refusal::Panic => write!(f, "panic"),
        }
    }
}
