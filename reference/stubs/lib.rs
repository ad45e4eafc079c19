// Stub for src/lib.rs: the modules and the names that the text looks for at the root of the crate.
// The bases other than the monomial one, and plotting, are left out of the port.

pub mod basis;
pub mod display;
pub mod error;
pub mod score;
pub mod statistics;
pub mod value;

mod fit;
mod polynomial;

pub use fit::*;
// Not in the text: the weights of patch 6, and the count of pivots of the shim.
pub use nalgebra::{count_pivots, with_weights};
pub use polynomial::*;
