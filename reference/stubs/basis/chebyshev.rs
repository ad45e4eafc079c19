//! Stub for src/basis/chebyshev.rs: the type names alone, for the aliases that name them. This basis is
//! left out of the port.

use std::marker::PhantomData;

use crate::value::Value;

pub struct ChebyshevBasis<T: Value = f64>(pub PhantomData<T>);

pub struct SecondFormChebyshevBasis<T: Value = f64>(pub PhantomData<T>);

pub struct ThirdFormChebyshevBasis<T: Value = f64>(pub PhantomData<T>);
