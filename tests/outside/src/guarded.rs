//! Buffers between guards, so that a write beside a buffer is seen.

use std::cell::Cell;

const GUARDS: usize = 16;

thread_local! {
    static NULLS: Cell<bool> = const { Cell::new(false) };
}

/// work in which every empty buffer is lent as a null pointer
pub fn with_nulls<T>(work: impl FnOnce() -> T) -> T {
    NULLS.with(|nulls| nulls.set(true));
    let result = work();
    NULLS.with(|nulls| nulls.set(false));
    result
}

pub trait Element: Copy + PartialEq {
    fn guard(place: usize) -> Self;
}

impl Element for u64 {
    fn guard(place: usize) -> u64 {
        0xa5a5_5a5a_c3c3_3c3c ^ ((place as u64) << 32)
    }
}

impl Element for u16 {
    fn guard(place: usize) -> u16 {
        0xa5c3 ^ place as u16
    }
}

impl Element for u8 {
    fn guard(place: usize) -> u8 {
        0xa5 ^ place as u8
    }
}

pub struct Guarded<T> {
    all: Vec<T>,
    length: usize,
}

impl<T: Element> Guarded<T> {
    pub fn new(content: &[T]) -> Guarded<T> {
        let mut all: Vec<T> = (0..GUARDS).map(T::guard).collect();
        all.extend_from_slice(content);
        all.extend((GUARDS..2 * GUARDS).map(T::guard));
        Guarded { all, length: content.len() }
    }

    pub fn at(&self) -> *const T {
        if self.length == 0 && NULLS.with(Cell::get) {
            return std::ptr::null();
        }
        self.all[GUARDS..].as_ptr()
    }

    pub fn at_mut(&mut self) -> *mut T {
        if self.length == 0 && NULLS.with(Cell::get) {
            return std::ptr::null_mut();
        }
        self.all[GUARDS..].as_mut_ptr()
    }

    pub fn len(&self) -> usize {
        self.length
    }

    pub fn content(&self) -> &[T] {
        &self.all[GUARDS..GUARDS + self.length]
    }

    /// an error unless the guards are as they were and the content is the expected one
    pub fn holds(&self, what: &str, expected: &[T]) -> Result<(), String> {
        let after = &self.all[GUARDS + self.length..];
        let whole = (0..GUARDS).all(|g| self.all[g] == T::guard(g) && after[g] == T::guard(GUARDS + g));
        if !whole {
            return Err(format!("{what}: written beside the buffer"));
        }
        if self.content() == expected {
            return Ok(());
        }
        let first = self.content().iter().zip(expected).position(|(a, b)| a != b);
        Err(format!("{what}: differs from element {first:?} of {} (expected length {})", self.length, expected.len()))
    }
}
