//! Stub for src/basis/legendre.rs: the type names alone, for the aliases that name them. This basis is
//! left out of the port.

use std::marker::PhantomData;

use crate::value::Value;

pub struct LegendreBasis<T: Value = f64>(pub PhantomData<T>);
