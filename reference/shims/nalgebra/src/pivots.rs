//! The pivots that are compared where polyfit solves a degree (document 02, E8). Inverting counts nothing.

use std::cell::Cell;

thread_local! {
    static COMPARED: Cell<usize> = const { Cell::new(0) };
}

/// Makes a call, and answers with it how many pivots its solutions compared.
pub fn count_pivots<R>(call: impl FnOnce() -> R) -> (R, usize) {
    let before = COMPARED.get();
    let result = call();
    (result, COMPARED.get() - before)
}

pub(crate) fn note(compared: usize) {
    COMPARED.set(COMPARED.get() + compared);
}
