mod combination;
mod error;
mod reference;
mod system;

pub use combination::{LcIndex, LinearCombination, Term, Variable};
pub use error::{Result, SynthesisError};
pub use reference::{ConstraintSystemRef, Namespace};
pub use system::{Call, Combination, ConstraintSystem, Row};
