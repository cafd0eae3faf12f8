// The inputs of the benchmark, and the answers expected of them, by arithmetic bit by bit.
#include <stdint.h>
#include <string.h>

#include "chhayublo.h"
#include "random.h"

enum { ROWS = CHHAYUBLO_MAX_ROWS, COLUMNS = CHHAYUBLO_MAX_COLUMNS };

// ---- matrices of bytes, one for each bit

typedef struct {
    int rows, columns;
    unsigned char at[ROWS][COLUMNS];
} bits;

static int below(int n) { return (int)((next_number() >> 33) % (uint64_t)n); }
static int coin(void) { return (int)(next_number() >> 63); }

static void clear(bits *b, int rows, int columns)
{
    memset(b, 0, sizeof *b);
    b->rows = rows;
    b->columns = columns;
}

// eight bytes at a time: most of the time of the checks goes here
static void add(unsigned char *to, const unsigned char *from, int count)
{
    int c = 0;
    for (uint64_t x, y; c + 8 <= count; c += 8) {
        memcpy(&x, to + c, 8);
        memcpy(&y, from + c, 8);
        x ^= y;
        memcpy(to + c, &x, 8);
    }
    for (; c < count; c++)
        to[c] ^= from[c];
}

static void swap_rows(bits *b, int i, int l)
{
    unsigned char row[COLUMNS];
    memcpy(row, b->at[i], sizeof row);
    memmove(b->at[i], b->at[l], sizeof row);
    memcpy(b->at[l], row, sizeof row);
}

// one column after the other: the rank, and the pivot columns
static int reduce_bits(bits *b, int *pivots)
{
    int rank = 0;
    for (int c = 0; c < b->columns && rank < b->rows; c++) {
        int i = rank;
        while (i < b->rows && !b->at[i][c])
            i++;
        if (i == b->rows)
            continue;
        swap_rows(b, i, rank);
        for (int l = 0; l < b->rows; l++)
            if (l != rank && b->at[l][c])
                add(b->at[l], b->at[rank], b->columns);
        pivots[rank++] = c;
    }
    return rank;
}

// the sum over the windows of k columns of 2^r - 1, r the window's pivots
static uint64_t additions_of(const int *pivots, int rank, int k)
{
    uint64_t total = 0;
    for (int i = 0; i < rank;) {
        int r = 0;
        for (int window = pivots[i] / k; i < rank && pivots[i] / k == window; i++)
            r++;
        total += (1u << r) - 1;
    }
    return total;
}

static int same(const bits *a, const bits *b)
{
    for (int i = 0; i < b->rows; i++)
        if (memcmp(a->at[i], b->at[i], (size_t)b->columns))
            return 0;
    return 1;
}

// ---- the input at hand

static bits input, reduced; // reduced bit by bit
static int rank, pivots[ROWS];
static int blocks;          // in solving: the packets' coefficients,
static bits image, shown;   // the image that they are made of, what of it they make known,
static uint8_t known[ROWS]; // and which blocks these are

static void uniform(bits *b)
{
    for (int i = 0; i < b->rows; i++)
        for (int c = 0; c < b->columns; c++)
            b->at[i][c] = (unsigned char)coin();
}

// random sums of r random rows
static void low_rank(bits *b, int r)
{
    static bits few;
    clear(&few, r, b->columns);
    uniform(&few);
    for (int i = 0; i < b->rows; i++)
        for (int l = 0; l < r; l++)
            if (coin())
                add(b->at[i], few.at[l], b->columns);
}

static void half_rank(bits *b) { low_rank(b, b->rows / 2); }
static void rank_16(bits *b) { low_rank(b, 16); }
static void zero(bits *b) { (void)b; }

// every other row is one of the random rows before it
static void repeats(bits *b)
{
    uniform(b);
    for (int i = 1; i < b->rows; i += 2)
        memcpy(b->at[i], b->at[2 * below((i + 1) / 2)], sizeof b->at[i]);
}

static void identity(bits *b)
{
    for (int i = 0; i < b->rows; i++)
        b->at[i][i] = 1;
}

// a permutation, and two more ones in each row
static void sparse(bits *b)
{
    identity(b);
    for (int i = b->rows - 1; i > 0; i--)
        swap_rows(b, i, below(i + 1));
    for (int i = 0; i < 2 * b->rows; i++)
        b->at[i / 2][below(b->columns)] ^= 1;
}

static void invertible(bits *b)
{
    static bits copy;
    do {
        uniform(b);
        copy = *b;
    } while (reduce_bits(&copy, pivots) < b->rows);
}

// packets of a random image, with random coefficients
static void packets(bits *b)
{
    clear(&image, blocks, b->columns - blocks);
    uniform(&image);
    for (int i = 0; i < b->rows; i++)
        for (int j = 0; j < blocks; j++)
            if (coin()) {
                b->at[i][j] = 1;
                add(b->at[i] + blocks, image.at[j], image.columns);
            }
}

// no inverse, and no image that meets the packets: a row is there twice, as a packet with another payload
static void spoil(bits *b)
{
    memcpy(b->at[0], b->at[b->rows - 1], sizeof b->at[0]);
    b->at[0][blocks] ^= blocks > 0;
}

// a block is known where a row has its coefficient alone
static void expect(void)
{
    reduced = input;
    rank = reduce_bits(&reduced, pivots);
    clear(&shown, blocks, input.columns - blocks);
    memset(known, 0, sizeof known);
    for (int i = 0; i < rank; i++) {
        int ones = 0, block = 0;
        for (int j = 0; j < blocks; j++)
            if (reduced.at[i][j]) {
                ones++;
                block = j;
            }
        if (ones == 1) {
            known[block] = 1;
            memcpy(shown.at[block], image.at[block], (size_t)shown.columns);
        }
    }
}
