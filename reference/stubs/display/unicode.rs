//! Stub for src/display/unicode.rs: plain characters in place of raised and lowered ones. The
//! comparison displays nothing.

use crate::value::Value;

pub fn subscript(text: &str) -> String {
    text.to_string()
}

pub fn superscript(text: &str) -> String {
    format!("^{text}")
}

pub fn float<T: Value>(
    value: T,
    _fixed_range: Option<std::ops::Range<T>>,
    precision: usize,
) -> String {
    format!("{value:.precision$}")
}
