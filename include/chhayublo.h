/*
 * Chhayublo: dense linear algebra over GF(2), for C11 and C++17 on x86-64 Linux (System V ABI).
 * Link with target/staticlib/libchhayublo.a, which `./archive` writes. It needs memcpy and memset from elsewhere
 * and nothing else, keeps no state between calls and allocates nothing.
 *
 * VERSION
 *   CHHAYUBLO_VERSION is the version of this header, chhayublo_version() that of the archive. Both grow by 1 with every change of
 *   a struct or a call. Where they differ, make no other call: its structs may have another layout.
 *
 * THREADS AND STACK
 *   Calls may run side by side in threads, as long as no buffer that one of them may write overlaps a buffer of another; each
 *   needs a room of its own. Reduction, inverse, solving and contradiction take 3.6 to 7.9 KB of stack whatever the size of the
 *   matrix, as measured on the archive; the other calls take less.
 *
 * MATRICES
 *   Up to 512 rows, none included, and 1 to 1024 columns. W = chhayublo_words(columns) words of 64 bits store a row, and the
 *   next row begins right behind it: rows * W words in all. Word c / 64 of a row has column c as its bit c % 64, counted from
 *   the lowest. What the last word of a row has beyond the last column is padding, each bit of which has to be 0: 64 columns
 *   leave none, 65 leave 63 bits a row.
 *
 * BUFFERS
 *   A buffer is a pointer and, next to it, its length in elements (words, bytes or list entries: never bytes for words).
 *   A buffer behind a pointer to const is only read. A buffer that a call may write must not overlap any other buffer of that
 *   call. Pointers are aligned as their type asks. The pointer of a buffer of length 0 is not used and may be NULL. What a
 *   buffer holds beyond its length is never read or written. Beyond this a call asks nothing of its arguments: it checks them
 *   all, for every value that they can have, and answers what does not fit with a number.
 *
 * ROOM
 *   Some calls are lent a room of words to work in. It must have at least the words that the functions chhayublo_*_room below
 *   give; what it holds before makes no difference. Every call that gets past its checks, whatever it then finds, leaves those
 *   words 0 and any words after them as they were.
 *
 * K
 *   Columns are worked off in windows of k, k = 1 to 8. It changes the time, the room needed and the number of additions told,
 *   and nothing else. 7 or 8 is fastest for large matrices. k may be larger than the number of columns.
 *
 * REFUSALS
 *   0 stands for no refusal. Each call lists its refusals in the order in which they are looked for: the first that applies is
 *   the answer. A refused call changes no buffer, the room included, with these two exceptions:
 *     9 (no inverse)      the result is unchanged, the room is cleared as told under ROOM;
 *     10 (contradictory)  the packets are left in reduced form, image and marks untouched, the room cleared.
 *   Beside any refusal, 10 included, every other number of an answer is 0, and all 512 pivots are CHHAYUBLO_NO_PIVOT.
 */
#ifndef CHHAYUBLO_H
#define CHHAYUBLO_H

#include <stddef.h>
#include <stdint.h>

#ifdef __cplusplus
#define CHHAYUBLO_STATIC_ASSERT static_assert
extern "C" {
#else
#define CHHAYUBLO_STATIC_ASSERT _Static_assert
#endif

#define CHHAYUBLO_VERSION 1

enum {
    CHHAYUBLO_MAX_ROWS = 512,
    CHHAYUBLO_MAX_COLUMNS = 1024,
    CHHAYUBLO_MAX_K = 8,
    CHHAYUBLO_MAX_ENTRIES = 64,         /* of a bundle */
    CHHAYUBLO_MAX_BUNDLE_BYTES = 65535,
    CHHAYUBLO_NO_PIVOT = 65535          /* stands in a pivot list past the rank */
};

/* why a call refused; crates/refusals/specs/Outcome.antt gives these numbers to the names that the proofs use */
enum chhayublo_refusal {
    CHHAYUBLO_DONE = 0,                   /* not refused */
    CHHAYUBLO_TOO_MANY_ROWS = 1,          /* rows over 512 */
    CHHAYUBLO_BAD_COLUMNS = 2,            /* columns 0 or over 1024 */
    CHHAYUBLO_BAD_K = 3,                  /* k 0 or over 8 */
    CHHAYUBLO_WRONG_MATRIX_LENGTH = 4,    /* other than rows * W words, more or fewer: matrix, entry, writer's words together */
    CHHAYUBLO_PADDING_NOT_ZERO = 5,       /* a padding bit is 1: in the matrix or packets, a bundle's body, the writer's words */
    CHHAYUBLO_ROOM_TOO_SHORT = 6,         /* the room has fewer words than needed; more are fine */
    CHHAYUBLO_BAD_BLOCK_COUNT = 7,        /* n, the number of blocks, is 0 or not below columns */
    CHHAYUBLO_NOT_SQUARE = 8,             /* rows differ from columns */
    CHHAYUBLO_NO_INVERSE = 9,             /* the matrix has no inverse */
    CHHAYUBLO_CONTRADICTORY = 10,         /* no image meets all packets */
    CHHAYUBLO_TOO_WIDE = 11,              /* columns + rows over 1024 where an identity goes beside the packets */
    CHHAYUBLO_NOT_BELOW_COUNT = 12,       /* a row or entry number that is not below the number of rows or entries */
    CHHAYUBLO_WRONG_BUFFER_LENGTH = 13,   /* result, image, marks or names of wrong length; the writer's lists differ in length */
    CHHAYUBLO_BAD_BUNDLE_LENGTH = 20,     /* a bundle of under 2 or over 65535 bytes */
    CHHAYUBLO_BAD_ENTRY_COUNT = 21,       /* no entry, or over 64 */
    CHHAYUBLO_CONTENTS_CUT = 22,          /* the bundle ends inside its contents */
    CHHAYUBLO_UNKNOWN_KIND = 23,          /* an entry's kind is not 1 or 2 */
    CHHAYUBLO_BAD_ENTRY_SHAPE = 24,       /* an entry's rows over 512, or its columns 0 or over 1024 */
    CHHAYUBLO_WRONG_OFFSET = 25,          /* an entry's offset is not where the contents, or the body before it, ended */
    CHHAYUBLO_BODY_PAST_END = 26,         /* an entry's body runs past the bundle's end */
    CHHAYUBLO_BYTES_LEFT_OVER = 27,       /* bytes after the last body */
    CHHAYUBLO_OUTPUT_TOO_SHORT = 28,      /* the writer's output has fewer bytes than the bundle */
    CHHAYUBLO_BUNDLE_TOO_LONG = 29        /* the writer's bundle would have over 65535 bytes */
};

/* a refusal's text, in the words of the list above; "" for 0, and "unknown refusal" for a number that the list does not have */
static inline const char *chhayublo_refusal_text(uint64_t number)
{
    switch (number) {
    case CHHAYUBLO_DONE: return "";
    case CHHAYUBLO_TOO_MANY_ROWS: return "rows over 512";
    case CHHAYUBLO_BAD_COLUMNS: return "columns 0 or over 1024";
    case CHHAYUBLO_BAD_K: return "k 0 or over 8";
    case CHHAYUBLO_WRONG_MATRIX_LENGTH: return "other than rows * W words, more or fewer: matrix, entry, writer's words together";
    case CHHAYUBLO_PADDING_NOT_ZERO: return "a padding bit is 1: in the matrix or packets, a bundle's body, the writer's words";
    case CHHAYUBLO_ROOM_TOO_SHORT: return "the room has fewer words than needed; more are fine";
    case CHHAYUBLO_BAD_BLOCK_COUNT: return "n, the number of blocks, is 0 or not below columns";
    case CHHAYUBLO_NOT_SQUARE: return "rows differ from columns";
    case CHHAYUBLO_NO_INVERSE: return "the matrix has no inverse";
    case CHHAYUBLO_CONTRADICTORY: return "no image meets all packets";
    case CHHAYUBLO_TOO_WIDE: return "columns + rows over 1024 where an identity goes beside the packets";
    case CHHAYUBLO_NOT_BELOW_COUNT: return "a row or entry number that is not below the number of rows or entries";
    case CHHAYUBLO_WRONG_BUFFER_LENGTH: return "result, image, marks or names of wrong length; the writer's lists differ in length";
    case CHHAYUBLO_BAD_BUNDLE_LENGTH: return "a bundle of under 2 or over 65535 bytes";
    case CHHAYUBLO_BAD_ENTRY_COUNT: return "no entry, or over 64";
    case CHHAYUBLO_CONTENTS_CUT: return "the bundle ends inside its contents";
    case CHHAYUBLO_UNKNOWN_KIND: return "an entry's kind is not 1 or 2";
    case CHHAYUBLO_BAD_ENTRY_SHAPE: return "an entry's rows over 512, or its columns 0 or over 1024";
    case CHHAYUBLO_WRONG_OFFSET: return "an entry's offset is not where the contents, or the body before it, ended";
    case CHHAYUBLO_BODY_PAST_END: return "an entry's body runs past the bundle's end";
    case CHHAYUBLO_BYTES_LEFT_OVER: return "bytes after the last body";
    case CHHAYUBLO_OUTPUT_TOO_SHORT: return "the writer's output has fewer bytes than the bundle";
    case CHHAYUBLO_BUNDLE_TOO_LONG: return "the writer's bundle would have over 65535 bytes";
    default: return "unknown refusal";
    }
}

/* where a row stands in the caller's matrix: `words` words from word `start` on; 0 and 0 where the view is refused */
typedef struct chhayublo_row {
    size_t start;
    size_t words;
} chhayublo_row;

/* what reduction and solving answer */
typedef struct chhayublo_answer {
    uint64_t refusal;     /* one of enum chhayublo_refusal */
    size_t rank;          /* number of rows of the reduced form that are not zero */
    size_t known;         /* solving: number of known blocks; reduction: 0 */
    size_t additions;     /* sum, over the windows of k columns, of 2^(pivots in the window) - 1 */
    uint16_t pivots[512]; /* the pivot columns, rising, in the first `rank` places; CHHAYUBLO_NO_PIVOT in the others */
} chhayublo_answer;

/* what the contradiction call answers */
typedef struct chhayublo_names {
    uint64_t refusal; /* one of enum chhayublo_refusal */
    uint64_t named;   /* 1: contradictory packets have been named; 0: refused, or there is no contradiction */
} chhayublo_names;

/* how many entries a bundle has */
typedef struct chhayublo_count {
    uint64_t refusal; /* one of enum chhayublo_refusal */
    size_t entries;
} chhayublo_count;

/* the three numbers of a bundle's entry */
typedef struct chhayublo_entry {
    uint64_t refusal; /* one of enum chhayublo_refusal */
    uint64_t kind;    /* 1 or 2, as stored */
    uint64_t rows;
    uint64_t columns;
} chhayublo_entry;

/* how many bytes a written bundle has */
typedef struct chhayublo_length {
    uint64_t refusal; /* one of enum chhayublo_refusal */
    size_t bytes;
} chhayublo_length;

CHHAYUBLO_STATIC_ASSERT(sizeof(size_t) == 8, "chhayublo: 64-bit targets only");
CHHAYUBLO_STATIC_ASSERT(sizeof(chhayublo_row) == 2 * 8, "chhayublo: no padding in a row");
CHHAYUBLO_STATIC_ASSERT(sizeof(chhayublo_answer) == 4 * 8 + 512 * 2, "chhayublo: no padding in an answer");
CHHAYUBLO_STATIC_ASSERT(sizeof(chhayublo_names) == 2 * 8, "chhayublo: no padding in names");
CHHAYUBLO_STATIC_ASSERT(sizeof(chhayublo_count) == 2 * 8, "chhayublo: no padding in a count");
CHHAYUBLO_STATIC_ASSERT(sizeof(chhayublo_entry) == 4 * 8, "chhayublo: no padding in an entry");
CHHAYUBLO_STATIC_ASSERT(sizeof(chhayublo_length) == 2 * 8, "chhayublo: no padding in a length");

/*
 * SIZES, in words of 64 bits. They are right for every shape that passes the checks (rows to 512, columns 1 to 1024, k 1 to 8).
 * Beyond that: chhayublo_words is right for every number; the others may wrap, and no k over 63 may be given.
 */

/* W: words of a row of that many columns */
static inline size_t chhayublo_words(size_t columns)
{
    return columns / 64 + (columns % 64 != 0);
}

/* words of a matrix; also of an inverse (n rows of n columns) and of an image (n rows of columns - n columns) */
static inline size_t chhayublo_matrix_words(size_t rows, size_t columns)
{
    return rows * chhayublo_words(columns);
}

/* room of chhayublo_reduce and of chhayublo_solve: 2^k rows as wide as the matrix */
static inline size_t chhayublo_reduce_room(size_t columns, size_t k)
{
    return ((size_t)1 << k) * chhayublo_words(columns);
}

/* room of chhayublo_invert for n rows and n columns: the matrix beside an identity, which makes 2n columns, and a table of 2^k
   such rows */
static inline size_t chhayublo_invert_room(size_t n, size_t k)
{
    return (n + ((size_t)1 << k)) * chhayublo_words(2 * n);
}

/* room of chhayublo_contradiction: the packets beside an identity, which makes columns + rows columns, and a table of 2^k such
   rows */
static inline size_t chhayublo_contradiction_room(size_t rows, size_t columns, size_t k)
{
    return (rows + ((size_t)1 << k)) * chhayublo_words(columns + rows);
}

/* bytes, not words, of a bundle of that many entries (to 64) whose bodies have that many words together (to 64 * 8192) */
static inline size_t chhayublo_bundle_bytes(size_t entries, size_t words)
{
    return 2 + 10 * entries + 8 * words;
}

/* VERSION of the archive's structs and calls; see the top */
uint64_t chhayublo_version(void);

/*
 * ROW VIEW: where row i stands in the matrix, namely at word i * W, W words long. Nothing is written.
 *   matrix  read: its length only; padding is not looked at
 * Refused, answered with start 0 and words 0 and without telling the number, if one of 1, 2, 4, 12 applies. A row that is
 * shown has at least one word, so words == 0 says that the view was refused. With no rows every view is refused.
 */
chhayublo_row chhayublo_row_view(const uint64_t *matrix, size_t matrix_words, size_t rows, size_t columns, size_t i);

/*
 * REDUCTION: brings the matrix into its reduced row echelon form, in place: rows of zeros at the end, the leftmost 1 of every
 * other row (its pivot) further right than that of the row above, zeros above and below each pivot. Among the matrices of this
 * size with the same row space it is the only one of that form.
 *   matrix  read and written: rows * W words
 *   room    chhayublo_reduce_room(columns, k) words or more
 * Refusals in order: 1, 2, 3, 4, 6, 5.
 * Else: rank, pivots and additions are told, known is 0, the matrix holds the reduced form, the room is cleared.
 */
chhayublo_answer chhayublo_reduce(uint64_t *matrix, size_t matrix_words, size_t rows, size_t columns, size_t k,
                                  uint64_t *room, size_t room_words);

/*
 * INVERSE of a square matrix of n rows and n columns.
 *   matrix  read: n * W words
 *   result  written: exactly n * W words; what it held before makes no difference, its padding included
 *   room    chhayublo_invert_room(n, k) words or more
 * Refusals in order: 1, 2, 8, 3, 4, 13 (result), 6, 5; then 9, which leaves the result as it was and clears the room.
 * A matrix of 0 rows is never square here, since columns are at least 1.
 * Else 0 is returned: the result holds the inverse, which is one from both sides, with zero padding; the room is cleared.
 */
uint64_t chhayublo_invert(const uint64_t *matrix, size_t matrix_words, size_t rows, size_t columns, size_t k,
                          uint64_t *result, size_t result_words, uint64_t *room, size_t room_words);

/*
 * SOLVING of a list of packets. Wanted is an image: n blocks, p = columns - n bits in each. The first n columns of a packet
 * choose blocks, the other p carry its payload; an image meets the packet if the chosen blocks xor to the payload. The order of
 * packets, and how often one is repeated, makes no difference. n goes up to 1023.
 *   packets  read and written: rows * W words, a packet a row; 0 rows are allowed
 *   image    written: exactly n * chhayublo_words(p) words, block b at word b * chhayublo_words(p)
 *   marks    written: exactly n bytes
 *   room     chhayublo_reduce_room(columns, k) words or more
 * Refusals in order: 1, 2, 7, 3, 4, 13 (image or marks), 6, 5; then 10 exactly if no image meets all packets: the packets then
 * hold their reduced form, over all columns, image and marks are as they were, the room is cleared, and the answer tells
 * neither rank nor pivots.
 * Else: the packets hold their reduced form. Mark b is 1 exactly if every image that meets the packets has the same block b, and
 * 0 if not. The image holds the content of each block so known, and zeros for every other block and for padding. rank, pivots and
 * additions are those of the reduction over all columns; known is the number of marks that are 1. The room is cleared.
 */
chhayublo_answer chhayublo_solve(uint64_t *packets, size_t packets_words, size_t rows, size_t columns, size_t n, size_t k,
                                 uint64_t *image, size_t image_words, uint8_t *marks, size_t marks_bytes,
                                 uint64_t *room, size_t room_words);

/*
 * CONTRADICTION: names packets that contradict each other: the xor of their coefficients is zero, that of their payloads is not.
 * It goes by the packets as they are given: after chhayublo_solve the list is a different one, so keep a copy, or call this first.
 *   packets  read: rows * W words
 *   names    written only if packets are named: exactly chhayublo_words(rows) words, of which bit i names packet i (in the order
 *            of a row with `rows` columns) and padding is 0; no words if there are no packets
 *   room     chhayublo_contradiction_room(rows, columns, k) words or more
 * Refusals in order: 1, 2, 7, 11, 3, 4, 13 (names), 6, 5.
 * Else the room is cleared, and named is 1, or it is 0 if some image meets all packets, and then the names are as they were.
 * Which packets are named follows from the packets and their order alone, not from k: put an identity of `rows` columns on the
 * right of the packets, reduce all of it, and take the topmost row with its pivot in a payload column; the last `rows` bits of
 * that row are the names. They need not be the fewest that contradict each other.
 */
chhayublo_names chhayublo_contradiction(const uint64_t *packets, size_t packets_words, size_t rows, size_t columns, size_t n,
                                        size_t k, uint64_t *names, size_t names_words, uint64_t *room, size_t room_words);

/*
 * BUNDLES carry 1 to 64 matrices in at most 65535 bytes. All numbers are little-endian.
 *   2 bytes             the number of entries
 *   10 bytes an entry   kind, rows, columns: 2 bytes each; offset of its body from the bundle's start: 4 bytes
 *   the bodies          in order and without gaps, each rows * W words of 8 bytes
 * Kind 1 has the order of bits told under MATRICES. Kind 2 turns each word round: column c is bit 63 - c % 64 of word c / 64, and
 * a row's padding is the lowest bits of its last word. Lent words are in the order of kind 1 in every call, for entries of either
 * kind. Unpack every entry of an accepted bundle and write them again, and its bytes come back; the other way round, each entry of
 * a bundle that was written unpacks to the words it was written from.
 */

/*
 * How many entries the bundle has.
 *   bundle  read: bundle_bytes bytes
 * Refusals in order: 20, 21, 22; then for each entry, before the next is looked at: 23, 24, 25, 26, 5 (by the stored kind's
 * padding); then 27.
 */
chhayublo_count chhayublo_bundle_read(const uint8_t *bundle, size_t bundle_bytes);

/*
 * What entry i is: its kind, its rows and its columns. The first entry is number 0.
 *   bundle  read: bundle_bytes bytes
 * Refusals in order: those of chhayublo_bundle_read, on the whole bundle, whichever entry is asked for; then 12.
 */
chhayublo_entry chhayublo_bundle_entry(const uint8_t *bundle, size_t bundle_bytes, size_t i);

/*
 * The words of entry i, and its three numbers. The kind told is the stored one; the words are in the order of kind 1 all the same.
 *   bundle  read: bundle_bytes bytes
 *   words   written: exactly rows * W words of that entry
 * Refusals in order: those of chhayublo_bundle_read; then 12; then 4 if the words lent are not as many as the entry has.
 */
chhayublo_entry chhayublo_bundle_unpack(const uint8_t *bundle, size_t bundle_bytes, size_t i, uint64_t *words, size_t words_length);

/*
 * Writes a bundle, and tells its length in bytes: chhayublo_bundle_bytes(kinds_length, words_length).
 *   kinds, rows, columns  read: an element for each entry
 *   words                 read: the words of all entries one after the other, in the order of kind 1
 *   out                   written: the bundle at its front; bytes after it are as they were
 * Refusals in order: 13 (the three lists differ in length); 21; for each entry, before the next is looked at: 23, 24; 4 (words
 * of all entries together, more or fewer); 5 (padding at the high end, for both kinds); 29; 28.
 */
chhayublo_length chhayublo_bundle_write(const uint16_t *kinds, size_t kinds_length, const uint16_t *rows, size_t rows_length,
                                        const uint16_t *columns, size_t columns_length, const uint64_t *words, size_t words_length,
                                        uint8_t *out, size_t out_bytes);

#ifdef __cplusplus
}
#endif

#undef CHHAYUBLO_STATIC_ASSERT

#endif
