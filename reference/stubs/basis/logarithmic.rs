//! Stub for src/basis/logarithmic.rs: the type names alone, for the aliases that name them. This basis is
//! left out of the port.

use std::marker::PhantomData;

use crate::value::Value;

pub struct LogarithmicBasis<T: Value = f64>(pub PhantomData<T>);
