//! The exported calls, declared again here, so that the tests rest on no other declaration.

#[repr(C)]
#[derive(Clone, Copy, Debug, PartialEq)]
pub struct Row {
    pub start: usize,
    pub words: usize,
}

#[repr(C)]
#[derive(Clone, Copy)]
pub struct Answer {
    pub refusal: u64,
    pub rank: usize,
    pub known: usize,
    pub additions: usize,
    pub pivots: [u16; 512],
}

#[repr(C)]
#[derive(Clone, Copy, Debug, PartialEq)]
pub struct Names {
    pub refusal: u64,
    pub named: u64,
}

#[repr(C)]
#[derive(Clone, Copy, Debug, PartialEq)]
pub struct Count {
    pub refusal: u64,
    pub entries: usize,
}

#[repr(C)]
#[derive(Clone, Copy, Debug, PartialEq)]
pub struct Entry {
    pub refusal: u64,
    pub kind: u64,
    pub rows: u64,
    pub columns: u64,
}

#[repr(C)]
#[derive(Clone, Copy, Debug, PartialEq)]
pub struct Length {
    pub refusal: u64,
    pub bytes: usize,
}

extern "C" {
    pub fn chhayublo_row_view(m: *const u64, m_len: usize, rows: usize, columns: usize, i: usize) -> Row;
    pub fn chhayublo_reduce(
        m: *mut u64,
        m_len: usize,
        rows: usize,
        columns: usize,
        k: usize,
        room: *mut u64,
        room_len: usize,
    ) -> Answer;
    pub fn chhayublo_invert(
        m: *const u64,
        m_len: usize,
        rows: usize,
        columns: usize,
        k: usize,
        result: *mut u64,
        result_len: usize,
        room: *mut u64,
        room_len: usize,
    ) -> u64;
    pub fn chhayublo_solve(
        m: *mut u64,
        m_len: usize,
        rows: usize,
        columns: usize,
        n: usize,
        k: usize,
        image: *mut u64,
        image_len: usize,
        marks: *mut u8,
        marks_len: usize,
        room: *mut u64,
        room_len: usize,
    ) -> Answer;
    pub fn chhayublo_contradiction(
        m: *const u64,
        m_len: usize,
        rows: usize,
        columns: usize,
        n: usize,
        k: usize,
        names: *mut u64,
        names_len: usize,
        room: *mut u64,
        room_len: usize,
    ) -> Names;
    pub fn chhayublo_bundle_read(bytes: *const u8, bytes_len: usize) -> Count;
    pub fn chhayublo_bundle_entry(bytes: *const u8, bytes_len: usize, i: usize) -> Entry;
    pub fn chhayublo_bundle_unpack(bytes: *const u8, bytes_len: usize, i: usize, words: *mut u64, words_len: usize) -> Entry;
    pub fn chhayublo_bundle_write(
        kinds: *const u16,
        kinds_len: usize,
        rows: *const u16,
        rows_len: usize,
        columns: *const u16,
        columns_len: usize,
        words: *const u64,
        words_len: usize,
        out: *mut u8,
        out_len: usize,
    ) -> Length;
}
