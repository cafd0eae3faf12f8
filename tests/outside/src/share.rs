//! The share of the inputs that is tried: all of them, or one in N where an emulator makes the calls slow. Drawn inputs take fewer
//! rounds. Of an enumeration each Nth item is taken, counted on from loop to loop, so N should have no factor in common with the
//! lengths of the lists: then all their items come up. What comes in sets keeps each set once, and what is short stays whole.

use std::sync::atomic::{AtomicUsize, Ordering};

static ONE_IN: AtomicUsize = AtomicUsize::new(1);
static TURN: AtomicUsize = AtomicUsize::new(0);

/// from now on one in so many; not 0
pub fn choose(one_in: usize) {
    ONE_IN.store(one_in, Ordering::Relaxed);
}

pub fn one_in() -> usize {
    ONE_IN.load(Ordering::Relaxed)
}

pub fn is_all() -> bool {
    one_in() == 1
}

/// the next item of an enumeration is the first of one
pub fn begin() {
    TURN.store(0, Ordering::Relaxed);
}

/// whether the next item is taken: the first one is
pub fn turn() -> bool {
    TURN.fetch_add(1, Ordering::Relaxed) % one_in() == 0
}

/// the items that are taken
pub fn of<I: IntoIterator>(items: I) -> impl Iterator<Item = I::Item> {
    items.into_iter().filter(|_| turn())
}

/// rounds of drawn inputs, at least one
pub fn rounds(all: usize) -> std::ops::Range<usize> {
    0..(all + one_in() - 1) / one_in()
}
