//! The archive's calls, and the only unsafe code. Every call checks all its numbers and lengths itself and touches nothing beyond
//! the buffers lent; `&mut` and `&` keep a written buffer apart from the others. So each call is safe for all slices, given that the
//! archive has the structs and calls of this file: its version is compared before the first call.

use crate::VERSION;
use std::sync::atomic::{AtomicBool, Ordering};

#[repr(C)]
pub struct Row {
    pub start: usize,
    pub words: usize,
}

#[repr(C)]
pub struct Answer {
    pub refusal: u64,
    pub rank: usize,
    pub known: usize,
    pub additions: usize,
    pub pivots: [u16; 512],
}

#[repr(C)]
pub struct Names {
    pub refusal: u64,
    pub named: u64,
}

#[repr(C)]
pub struct Count {
    pub refusal: u64,
    pub entries: usize,
}

#[repr(C)]
pub struct Entry {
    pub refusal: u64,
    pub kind: u64,
    pub rows: u64,
    pub columns: u64,
}

#[repr(C)]
pub struct Length {
    pub refusal: u64,
    pub bytes: usize,
}

extern "C" {
    fn chhayublo_version() -> u64;
}

/// panics where the archive is of another version; asks it once
fn compare_versions() {
    static SAME: AtomicBool = AtomicBool::new(false);
    if !SAME.load(Ordering::Relaxed) {
        // SAFETY: takes nothing and returns a number, in every version
        same_version(unsafe { chhayublo_version() });
        SAME.store(true, Ordering::Relaxed);
    }
}

fn same_version(archive: u64) {
    assert!(archive == VERSION, "libchhayublo.a has version {archive} of the calls, but these bindings are for version {VERSION}");
}

/// Declares a call as C sees it, and beside it a function that takes slices.
macro_rules! calls {
    ($($c_name:ident as $name:ident($($slice:ident: $kind:ident $element:ty),*; $($number:ident),*; $($last:ident: $last_kind:ident $last_element:ty),*) -> $answer:ty;)*) => {
        extern "C" {
            $(fn $c_name($($slice: calls!(@pointer $kind $element), _: usize,)* $($number: usize,)* $($last: calls!(@pointer $last_kind $last_element), _: usize,)*) -> $answer;)*
        }
        $(
            #[allow(clippy::too_many_arguments)]
            pub fn $name($($slice: calls!(@slice $kind $element),)* $($number: usize,)* $($last: calls!(@slice $last_kind $last_element),)*) -> $answer {
                compare_versions();
                // SAFETY: the pointers and lengths are those of slices; see the top of this file
                unsafe { $c_name($(calls!(@lend $kind $slice), $slice.len(),)* $($number,)* $(calls!(@lend $last_kind $last), $last.len(),)*) }
            }
        )*
    };
    (@pointer read $element:ty) => { *const $element };
    (@pointer written $element:ty) => { *mut $element };
    (@slice read $element:ty) => { &[$element] };
    (@slice written $element:ty) => { &mut [$element] };
    (@lend read $slice:ident) => { $slice.as_ptr() };
    (@lend written $slice:ident) => { $slice.as_mut_ptr() };
}

calls! {
    chhayublo_row_view as row_view(matrix: read u64; rows, columns, i; ) -> Row;
    chhayublo_reduce as reduce(matrix: written u64; rows, columns, k; room: written u64) -> Answer;
    chhayublo_invert as invert(matrix: read u64; rows, columns, k; result: written u64, room: written u64) -> u64;
    chhayublo_solve as solve(packets: written u64; rows, columns, n, k; image: written u64, marks: written u8, room: written u64) -> Answer;
    chhayublo_contradiction as contradiction(packets: read u64; rows, columns, n, k; names: written u64, room: written u64) -> Names;
    chhayublo_bundle_read as bundle_read(bytes: read u8; ; ) -> Count;
    chhayublo_bundle_entry as bundle_entry(bytes: read u8; i; ) -> Entry;
    chhayublo_bundle_unpack as bundle_unpack(bytes: read u8; i; words: written u64) -> Entry;
    chhayublo_bundle_write as bundle_write(kinds: read u16, rows: read u16, columns: read u16, words: read u64; ; out: written u8) -> Length;
}

#[cfg(test)]
mod tests {
    use super::{same_version, VERSION};

    #[test]
    #[should_panic(expected = "libchhayublo.a has version 0 of the calls, but these bindings are for version 1")]
    fn another_version_is_an_error() {
        same_version(VERSION);
        same_version(VERSION - 1);
    }
}
