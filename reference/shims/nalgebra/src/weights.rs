//! The weights of samples (document 02, E5). polyfit's calls take pairs of x and y; the weights of these
//! are set beside, for as long as a call runs.

use std::cell::RefCell;

thread_local! {
    static WEIGHTS: RefCell<Option<Vec<f64>>> = const { RefCell::new(None) };
}

/// Puts back what was set, also where the call panics.
struct Before(Option<Vec<f64>>);

impl Drop for Before {
    fn drop(&mut self) {
        WEIGHTS.set(self.0.take());
    }
}

/// Makes a call whose samples have these weights, in their order.
pub fn with_weights<R>(weights: Vec<f64>, call: impl FnOnce() -> R) -> R {
    let _before = Before(WEIGHTS.replace(Some(weights)));
    call()
}

/// The weights that are set, if any are.
pub(crate) fn set() -> Option<Vec<f64>> {
    WEIGHTS.with_borrow(Clone::clone)
}
