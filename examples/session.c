/* Blocks of a byte are sent as xor packets, some packets are lost, and what can be known of the blocks is printed: first of four
   blocks, where a packet fits one word, then of 72, where it takes two.
   cc -std=c11 -I include examples/session.c target/staticlib/libchhayublo.a -o session */
#include <chhayublo.h>
#include <stdio.h>
#include <string.h>

enum { BITS = 8, K = 4, FEW = 4, MANY = 72, MANY_WORDS = 2, ROOM = 32 /* chhayublo_reduce_room(MANY + BITS, K) */ };

static void flip(uint64_t *row, size_t column)
{
    row[column / 64] ^= (uint64_t)1 << column % 64;
}

/* adds block b to a packet of n coefficients and then BITS columns of payload: flips its coefficient, xors it to the payload */
static void add(uint64_t *packet, size_t n, const char *blocks, size_t b)
{
    flip(packet, b);
    for (size_t bit = 0; bit < BITS; bit++)
        if ((unsigned char)blocks[b] >> bit & 1)
            flip(packet, n + bit);
}

/* prints what the packets tell of n blocks, from block `first` on */
static void tell(const uint64_t *received, size_t count, size_t n, size_t first)
{
    uint64_t packets[MANY * MANY_WORDS], image[MANY], room[ROOM]; /* solving works in place, so in a copy */
    uint8_t known[MANY];
    size_t words = chhayublo_matrix_words(count, n + BITS);
    memcpy(packets, received, words * sizeof *packets);
    chhayublo_answer answer = chhayublo_solve(packets, words, count, n + BITS, n, K, image, n, known, n, room, ROOM);
    printf("%zu packets: refusal %d, rank %zu, %zu of %zu blocks known\n",
           count, (int)answer.refusal, answer.rank, answer.known, n);
    if (answer.refusal != CHHAYUBLO_DONE)
        printf("%s\n", chhayublo_refusal_text(answer.refusal));
    for (size_t b = first; b < n && answer.refusal == CHHAYUBLO_DONE; b++)
        known[b] ? printf("block %zu: %c\n", b, (char)image[b]) : printf("block %zu: not known\n", b);
}

static void few_blocks(void)
{
    const unsigned sent[] = {0x3, 0x6, 0x4, 0x8, 0x5, 0xf}; /* bit b chooses block b */
    const int lost[] = {0, 0, 0, 1, 0, 1};
    uint64_t received[6] = {0};
    size_t count = 0;
    for (size_t i = 0; i < 6; i++) {
        for (size_t b = 0; b < FEW; b++)
            if (!lost[i] && sent[i] >> b & 1)
                add(&received[count], FEW, "BOOT", b);
        count += !lost[i];
    }
    tell(received, count, FEW, 0);
    for (size_t b = 0; b < FEW; b++)
        add(&received[count], FEW, "BOOT", b); /* the last one, sent again */
    tell(received, ++count, FEW, 0);
    add(&received[count], FEW, "ROOT", 0); /* not of this image: the list contradicts itself */
    tell(received, ++count, FEW, 0);
}

/* block 0 alone, then each with the next one, but not 69 with 70: blocks 70 and 71 only come together */
static void many_blocks(void)
{
    const char *const blocks = "Seventy-two blocks of eight bits take eighty columns: two words a packet";
    uint64_t received[MANY * MANY_WORDS] = {0};
    size_t count = 0;
    add(&received[MANY_WORDS * count++], MANY, blocks, 0);
    for (size_t b = 0; b + 1 < MANY; b++) {
        if (b == 69)
            continue;
        add(&received[MANY_WORDS * count], MANY, blocks, b);
        add(&received[MANY_WORDS * count++], MANY, blocks, b + 1);
    }
    tell(received, count, MANY, 69);
    add(&received[MANY_WORDS * count++], MANY, blocks, 71); /* tells 71, and so 70 */
    tell(received, count, MANY, 69);
}

int main(void)
{
    few_blocks();
    many_blocks();
    return 0;
}
