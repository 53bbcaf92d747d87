//! A stand-in for ark_relations: a constraint system with no limit on room. What it holds is open, so that the driver can
//! write it out.
pub mod r1cs;

/// The empty sum.
#[macro_export]
macro_rules! lc {
    () => {
        $crate::r1cs::LinearCombination::zero()
    };
}

/// A namespace of a system; its name goes nowhere.
#[macro_export]
macro_rules! ns {
    ($cs:expr, $name:expr) => {{
        let _ = $name;
        $crate::r1cs::Namespace::from($cs.clone())
    }};
}
