//! Stub for src/basis/augmented_fourier.rs: the type names alone, for the aliases that name them. This basis is
//! left out of the port.

use std::marker::PhantomData;

use crate::value::Value;

pub struct AugmentedFourierBasis<T: Value = f64>(pub PhantomData<T>);

pub struct FourierBasis<T: Value = f64>(pub PhantomData<T>);

pub struct LinearAugmentedFourierBasis<T: Value = f64>(pub PhantomData<T>);
