/* The header as a stranger includes it, in C11 and in C++17: it compiles without a warning, its version is the archive's, its
   structs have the layout of the calls, its sizes are those that the calls ask for, its texts are those of the numbers, and what
   it declares links. Ends with status 0 if all of that holds. */
#include <assert.h>
#include <chhayublo.h>
#include <chhayublo.h>
#include <string.h>

static_assert(offsetof(chhayublo_row, words) == 8 && sizeof(chhayublo_row) == 16, "row");
static_assert(offsetof(chhayublo_answer, additions) == 24 && offsetof(chhayublo_answer, pivots) == 32, "answer");
static_assert(offsetof(chhayublo_names, named) == 8 && sizeof(chhayublo_names) == 16, "names");
static_assert(offsetof(chhayublo_count, entries) == 8 && sizeof(chhayublo_count) == 16, "count");
static_assert(offsetof(chhayublo_entry, columns) == 24, "entry");
static_assert(offsetof(chhayublo_length, bytes) == 8 && sizeof(chhayublo_length) == 16, "length");

static uint64_t matrix[8192], result[8192], image[1024], names[8], room[20000];
static uint8_t marks[1024], bundle[65535];

/* a call is refused with 6 one word below the size that the header gives, and not at it */
static int sizes_are_exact(size_t k)
{
    size_t reduce = chhayublo_reduce_room(200, k), invert = chhayublo_invert_room(100, k);
    size_t contradiction = chhayublo_contradiction_room(100, 200, k), words = chhayublo_matrix_words(100, 200);
    size_t square = chhayublo_matrix_words(100, 100), blocks = chhayublo_matrix_words(50, 150);
    return chhayublo_reduce(matrix, words, 100, 200, k, room, reduce).refusal == CHHAYUBLO_DONE
        && chhayublo_reduce(matrix, words, 100, 200, k, room, reduce - 1).refusal == CHHAYUBLO_ROOM_TOO_SHORT
        && chhayublo_solve(matrix, words, 100, 200, 50, k, image, blocks, marks, 50, room, reduce).refusal == CHHAYUBLO_DONE
        && chhayublo_invert(matrix, square, 100, 100, k, result, square, room, invert) == CHHAYUBLO_NO_INVERSE
        && chhayublo_invert(matrix, square, 100, 100, k, result, square, room, invert - 1) == CHHAYUBLO_ROOM_TOO_SHORT
        && chhayublo_contradiction(matrix, words, 100, 200, 50, k, names, chhayublo_words(100), room, contradiction).refusal == CHHAYUBLO_DONE
        && chhayublo_contradiction(matrix, words, 100, 200, 50, k, names, chhayublo_words(100), room, contradiction - 1).refusal
            == CHHAYUBLO_ROOM_TOO_SHORT;
}

static int bundles_link(void)
{
    const uint16_t kinds[2] = {1, 2}, rows[2] = {2, 1}, columns[2] = {3, 65};
    const uint64_t words[4] = {5, 2, 1, 1};
    uint64_t back[2] = {0, 0};
    chhayublo_length written = chhayublo_bundle_write(kinds, 2, rows, 2, columns, 2, words, 4, bundle, sizeof bundle);
    chhayublo_entry told = chhayublo_bundle_unpack(bundle, written.bytes, 1, back, 2);
    return written.refusal == CHHAYUBLO_DONE && written.bytes == chhayublo_bundle_bytes(2, 4)
        && chhayublo_bundle_read(bundle, written.bytes).entries == 2 && chhayublo_bundle_entry(bundle, written.bytes, 0).columns == 3
        && told.kind == 2 && told.rows == 1 && told.columns == 65 && memcmp(back, words + 2, sizeof back) == 0;
}

static int text_is(uint64_t number, const char *text)
{
    return strcmp(chhayublo_refusal_text(number), text) == 0;
}

/* each refusal has a text, the numbers between and beyond have none */
static int texts_are_right(void)
{
    int right = text_is(0, "") && text_is(1, "rows over 512") && text_is(10, "no image meets all packets")
        && text_is(20, "a bundle of under 2 or over 65535 bytes") && text_is(29, "the writer's bundle would have over 65535 bytes")
        && text_is(UINT64_MAX, "unknown refusal") && text_is(((uint64_t)1 << 32) + 1, "unknown refusal");
    for (uint64_t number = 1; number < 40; number++) {
        int listed = number <= CHHAYUBLO_WRONG_BUFFER_LENGTH
            || (number >= CHHAYUBLO_BAD_BUNDLE_LENGTH && number <= CHHAYUBLO_BUNDLE_TOO_LONG);
        right = right && !text_is(number, "") && text_is(number, "unknown refusal") == !listed;
    }
    return right;
}

int main(void)
{
    chhayublo_row row = chhayublo_row_view(matrix, 40, 10, 200, 3);
    int right = chhayublo_version() == CHHAYUBLO_VERSION && row.start == 12 && row.words == chhayublo_words(200) && bundles_link()
        && texts_are_right();
    for (size_t k = 1; k <= CHHAYUBLO_MAX_K; k++)
        right = right && sizes_are_exact(k);
    return right ? 0 : 1;
}
