//! In place of the crate's groups: the names that its lib.rs passes on.
pub trait CurveVar {}
pub trait GroupOpsBounds {}
