//! In place of the crate's polynomials. No command uses them.
