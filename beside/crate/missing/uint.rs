//! In place of the crate's unsigned numbers: the name that its lib.rs passes on.
use core::marker::PhantomData;

pub struct UInt<const N: usize, T, F>(PhantomData<(T, F)>);
