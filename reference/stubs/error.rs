//! Stub for src/error.rs: the errors that the text raises.

/// Why a fit failed.
#[derive(Debug, Clone, PartialEq)]
pub enum Error {
    /// A number does not fit the target type.
    CastFailed,
    /// The x is outside the range of the samples: its ends.
    DataRange(String, String),
    /// The degree is not below the number of samples.
    DegreeTooHigh(usize),
    /// The decomposition did not settle.
    DidNotConverge,
    /// The matrix could not be solved or inverted.
    Algebra(&'static str),
    /// No number of coefficients of this basis.
    InvalidNumberOfParameters(usize),
    /// There are no samples, or too few.
    NoData,
    /// No degree was chosen.
    NoModel,
}

pub type Result<T> = std::result::Result<T, Error>;
