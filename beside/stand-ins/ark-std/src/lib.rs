//! A stand-in for ark_std: modules of std under the names that the crate uses.
pub use std::{borrow, cmp, fmt, iter, ops, rc, string, vec};
