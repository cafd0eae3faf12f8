// The buffers of the benchmark, and the calls that it times: ours and libm4ri's, and what is wrong with their answers.
#include <m4ri/m4ri.h>
#include <stdint.h>
#include <string.h>

#include "chhayublo.h"
#include "inputs.h"

// ---- the buffers

enum { WORDS = COLUMNS / 64, INPUTS = 12, JUNK = 0xa5 };

// the inputs, and the same with an identity on the right
static _Alignas(64) uint64_t fresh[INPUTS][ROWS * WORDS], beside[INPUTS][ROWS * WORDS];
static _Alignas(64) uint64_t words[ROWS * WORDS], result[ROWS * WORDS], room[(ROWS + 256) * WORDS];
static uint8_t marks[ROWS];
static chhayublo_answer said;
static mzd_t *their_fresh[INPUTS], *theirs, *their_result;
static int their_rank, their_known;

static size_t width(int columns) { return ((size_t)columns + 63) / 64; }

static void put(uint64_t *m, size_t w, int i, int c) { m[(size_t)i * w + (size_t)c / 64] |= (uint64_t)1 << c % 64; }

// the input as words, w a row
static void pack(uint64_t *m, size_t w)
{
    memset(m, 0, (size_t)input.rows * w * 8);
    for (int i = 0; i < input.rows; i++)
        for (int c = 0; c < input.columns; c++)
            if (input.at[i][c])
                put(m, w, i, c);
}

static void resize(mzd_t **m, int rows, int columns)
{
    if (*m)
        mzd_free(*m);
    *m = mzd_init(rows, columns);
}

static void resize_theirs(int rows, int columns)
{
    for (int l = 0; l < INPUTS; l++)
        resize(&their_fresh[l], rows, columns);
    resize(&theirs, rows, columns);
    resize(&their_result, rows, columns);
}

// the input at hand becomes number l
static void load(int l, int with_identity)
{
    pack(fresh[l], width(input.columns));
    if (with_identity) {
        pack(beside[l], width(input.columns + input.rows));
        for (int i = 0; i < input.rows; i++)
            put(beside[l], width(input.columns + input.rows), i, input.columns + i);
    }
    for (int i = 0; i < input.rows; i++)
        for (int c = 0; c < input.columns; c++)
            mzd_write_bit(their_fresh[l], i, c, input.at[i][c]);
}

// a number made of all inputs: where it differs, the inputs do
static uint64_t digest(void)
{
    uint64_t number = 14695981039346656037u; // FNV-1a, by words
    for (int l = 0; l < INPUTS; l++)
        for (size_t i = 0; i < (size_t)input.rows * width(input.columns); i++)
            number = (number ^ fresh[l][i]) * 1099511628211u;
    return number;
}

// so that no answer of an earlier run is taken for a new one
static void litter(void)
{
    memset(result, JUNK, sizeof result);
    memset(room, JUNK, sizeof room);
    memset(marks, JUNK, sizeof marks);
    memset(&said, JUNK, sizeof said);
    mzd_set_ui(their_result, 0);
    their_rank = their_known = -2;
}

static int is_junk(const void *p, size_t size)
{
    for (size_t l = 0; l < size; l++)
        if (((const uint8_t *)p)[l] != JUNK)
            return 0;
    return 1;
}

// the first words of the room end zero, the others as they were
static int room_clean(size_t needed)
{
    for (size_t l = 0; l < needed; l++)
        if (room[l])
            return 0;
    return is_junk(room + needed, sizeof room - 8 * needed);
}

// rows of words as bits, from column c on
static const bits *bits_of(const uint64_t *m, int rows, int c, int columns)
{
    static bits b;
    clear(&b, rows, columns);
    for (int i = 0; i < rows; i++)
        for (int l = 0; l < columns; l++)
            b.at[i][l] = m[(size_t)i * width(c + columns) + (size_t)(c + l) / 64] >> (c + l) % 64 & 1;
    return &b;
}

static const bits *bits_of_theirs(mzd_t *m)
{
    static bits b;
    clear(&b, m->nrows, m->ncols);
    for (int i = 0; i < m->nrows; i++)
        for (int c = 0; c < m->ncols; c++)
            b.at[i][c] = (unsigned char)mzd_read_bit(m, i, c);
    return &b;
}

// ---- reduction

enum { TWO_SLICES, OURS, BY_TABLES, BY_PLUQ, BY_CHOICE };

static size_t table_room(int k) { return width(input.columns) << k; }

static void reduce_words(int columns, int k)
{
    size_t rows = (size_t)input.rows, w = width(columns);
    said = chhayublo_reduce(words, rows * w, rows, (size_t)columns, (size_t)k, room, w << k);
}

static void echelonize(int how, int k)
{
    if (how == BY_TABLES)
        their_rank = mzd_echelonize_m4ri(theirs, 1, k);
    else if (how == BY_PLUQ)
        their_rank = mzd_echelonize_pluq(theirs, 1);
    else
        their_rank = mzd_echelonize(theirs, 1);
}

static void reduction(int how, int k)
{
    if (how == OURS)
        reduce_words(input.columns, k);
    else
        echelonize(how, k);
}

static const char *wrong_reduction(int how, int k)
{
    if ((how == OURS ? (int)said.rank : their_rank) != rank)
        return "rank";
    if (!same(how == OURS ? bits_of(words, input.rows, 0, input.columns) : bits_of_theirs(theirs), &reduced))
        return "matrix";
    if (how != OURS)
        return 0;
    if (said.additions != additions_of(pivots, rank, k))
        return "table additions";
    for (int i = 0; i < ROWS; i++)
        if (said.pivots[i] != (i < rank ? pivots[i] : CHHAYUBLO_NO_PIVOT))
            return "pivots";
    return 0;
}

// ---- inverse

// the steps of mzd_inv_m4ri, which (as of 20200125) takes a k but does not hand it on
static void their_inverse(int k)
{
    int n = input.rows, middle = 64 * theirs->width;
    mzd_t *both = mzd_init(n, 2 * middle);
    mzd_t *left = mzd_init_window(both, 0, 0, n, n), *right = mzd_init_window(both, 0, middle, n, middle + n);
    mzd_copy(left, theirs);
    mzd_set_ui(right, 1);
    mzd_echelonize_m4ri(both, 1, k);
    mzd_copy(their_result, right);
    mzd_free(left);
    mzd_free(right);
    mzd_free(both);
}

static size_t inverse_room(int k) { return ((size_t)input.rows + (1u << k)) * width(2 * input.columns); }

static void inverse(int how, int k)
{
    size_t n = (size_t)input.rows, len = n * width(input.columns);
    if (how == OURS)
        said.refusal = chhayublo_invert(words, len, n, n, (size_t)k, result, len, room, inverse_room(k));
    else if (how == TWO_SLICES)
        reduce_words(2 * input.columns, k);
    else if (k == 0)
        mzd_inv_m4ri(their_result, theirs, 0);
    else
        their_inverse(k);
}

static int product_is_identity(const bits *a, const bits *b)
{
    static bits unit;
    unsigned char row[COLUMNS];
    clear(&unit, a->rows, b->columns);
    identity(&unit);
    for (int i = 0; i < a->rows; i++) {
        memset(row, 0, sizeof row);
        for (int l = 0; l < b->rows; l++)
            if (a->at[i][l])
                add(row, b->at[l], b->columns);
        if (memcmp(row, unit.at[i], (size_t)b->columns))
            return 0;
    }
    return 1;
}

static const char *wrong_inverse(int how, int k)
{
    (void)k;
    int n = input.rows;
    const bits *b = how == OURS         ? bits_of(result, n, 0, n)
                    : how == TWO_SLICES ? bits_of(words, n, n, n)
                                        : bits_of_theirs(their_result);
    if (!product_is_identity(b, &input))
        return "product with the matrix";
    if (!product_is_identity(&input, b))
        return "product of the matrix with it";
    return how != OURS || same(bits_of(words, n, 0, n), &input) ? 0 : "matrix, which is only read";
}

// ---- solving

// What libm4ri leaves to its user, for reduced packets whose first `count` rows are not zero: the number of known blocks, -1
// if the packets contradict each other. Coefficients and blocks are whole words here. Pivots rise, so rows without
// coefficients come last, and no row begins left of the one above it.
static int read_off(mzd_t *m, int count, uint64_t *to, uint8_t *marked)
{
    int w = blocks / 64, v = m->width - w, l = 0, found = 0;
    if (count > 0) {
        const word *last = mzd_row(m, count - 1);
        while (l < w && !last[l])
            l++;
        if (l == w)
            return -1;
    }
    memset(to, 0, (size_t)blocks * (size_t)v * 8);
    memset(marked, 0, (size_t)blocks);
    l = 0;
    for (int i = 0; i < count; i++) {
        const word *row = mzd_row(m, i);
        while (!row[l])
            l++;
        word others = row[l] & (row[l] - 1);
        for (int s = l + 1; s < w; s++)
            others |= row[s];
        if (others)
            continue;
        int block = 64 * l + __builtin_ctzll(row[l]);
        memcpy(to + (size_t)block * (size_t)v, row + w, (size_t)v * 8);
        marked[block] = 1;
        found++;
    }
    return found;
}

static void solving(int how, int k)
{
    size_t rows = (size_t)input.rows, columns = (size_t)input.columns, n = (size_t)blocks;
    if (how == OURS) {
        said = chhayublo_solve(words, rows * width(input.columns), rows, columns, n, (size_t)k, result,
                               n * width(image.columns), marks, n, room, table_room(k));
    } else {
        echelonize(how, k);
        their_known = read_off(theirs, their_rank, result, marks);
    }
}

static const char *wrong_solving(int how, int k)
{
    int total = 0;
    for (int j = 0; j < blocks; j++)
        total += known[j];
    if ((how == OURS ? (int)said.known : their_known) != total)
        return "number of known blocks";
    if (memcmp(marks, known, (size_t)blocks))
        return "marks";
    if (!same(bits_of(result, blocks, 0, image.columns), &shown))
        return "image";
    return wrong_reduction(how, k);
}
