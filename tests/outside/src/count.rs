//! How many inputs were tried. An input is a call of the library whose answer and buffers have all been held to the model, or a run
//! of the program of which all that it wrote has.

use std::sync::atomic::{AtomicUsize, Ordering};

static INPUTS: AtomicUsize = AtomicUsize::new(0);

/// one more, told by whoever compared the last of it
pub fn one() {
    INPUTS.fetch_add(1, Ordering::Relaxed);
}

pub fn so_far() -> usize {
    INPUTS.load(Ordering::Relaxed)
}
