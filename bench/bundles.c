// Times reading, unpacking and writing of bundles of 65,534 bytes, the longest there are, and the program reduce as a process.
#include <fcntl.h>
#include <stdint.h>
#include <stdio.h>
#include <stdlib.h>
#include <string.h>
#include <sys/wait.h>
#include <time.h>
#include <unistd.h>

#include "chhayublo.h"
#include "random.h"

enum { LENGTH = 65534, WORDS = 8190, ENTRIES = 64 };

static size_t count;
static uint16_t kinds[ENTRIES], rows[ENTRIES], columns[ENTRIES];
static uint64_t given[WORDS], words[WORDS];
static size_t total;
static uint8_t bytes[LENGTH], out[LENGTH];

static size_t width(size_t i) { return (columns[i] + 63u) / 64; }

static void put(size_t at, int size, uint64_t x)
{
    for (int i = 0; i < size; i++)
        bytes[at + i] = (uint8_t)(x >> 8 * i);
}

static uint64_t reversed(uint64_t x)
{
    uint64_t y = 0;
    for (int i = 0; i < 64; i++)
        y |= (x >> i & 1) << (63 - i);
    return y;
}

// an entry of random words without padding
static void add(uint16_t kind, uint16_t r, uint16_t c)
{
    kinds[count] = kind;
    rows[count] = r;
    columns[count] = c;
    for (size_t l = 0; l < r * width(count); l++) {
        uint64_t x = next_number();
        if (c % 64 && l % width(count) == width(count) - 1)
            x &= ((uint64_t)1 << c % 64) - 1;
        given[total++] = x;
    }
    count++;
}

static void lay_out(void)
{
    size_t at = 2 + 10 * count, l = 0;
    put(0, 2, count);
    for (size_t i = 0; i < count; i++) {
        put(2 + 10 * i, 2, kinds[i]);
        put(4 + 10 * i, 2, rows[i]);
        put(6 + 10 * i, 2, columns[i]);
        put(8 + 10 * i, 4, at);
        for (size_t e = l + rows[i] * width(i); l < e; l++, at += 8)
            put(at, 8, kinds[i] == 2 ? reversed(given[l]) : given[l]);
    }
    if (at != LENGTH) {
        printf("a bundle of %zu bytes\n", at);
        exit(2);
    }
}

// the contents, then every entry
static void unpack_all(void)
{
    size_t l = 0;
    count = chhayublo_bundle_read(bytes, LENGTH).entries;
    for (size_t i = 0; i < count; i++) {
        chhayublo_entry e = chhayublo_bundle_entry(bytes, LENGTH, i);
        size_t n = chhayublo_matrix_words(e.rows, e.columns);
        chhayublo_bundle_unpack(bytes, LENGTH, i, words + l, n);
        l += n;
    }
}

static void write_all(void)
{
    chhayublo_bundle_write(kinds, count, rows, count, columns, count, given, total, out, LENGTH);
}

static const char *program, *input;

// the program on the bundle, its output thrown away
static void run(void)
{
    pid_t child = fork();
    if (child == 0) {
        dup2(open(input, O_RDONLY), 0);
        dup2(open("/dev/null", O_WRONLY), 1);
        execl(program, program, (char *)0);
        _exit(127);
    }
    int status;
    waitpid(child, &status, 0);
    if (status != 0) {
        printf("the program failed\n");
        exit(1);
    }
}

static double now(void)
{
    struct timespec t;
    clock_gettime(CLOCK_MONOTONIC, &t);
    return (double)t.tv_sec + (double)t.tv_nsec * 1e-9;
}

// the least time of one call, over that many seconds
static double least(void (*call)(void), double seconds)
{
    double best = 1e9, end = now() + seconds;
    while (now() < end) {
        double start = now();
        call();
        double took = now() - start;
        best = took < best ? took : best;
    }
    return best;
}

static int measure(const char *name, double seconds)
{
    size_t entries = count;
    lay_out();
    unpack_all();
    int wrong = count != entries || memcmp(words, given, total * 8);
    write_all();
    wrong |= memcmp(out, bytes, LENGTH) != 0;
    if (wrong) {
        printf("%s: wrong\n", name);
        return 1;
    }
    FILE *f = fopen(input, "wb");
    fwrite(bytes, 1, LENGTH, f);
    fclose(f);
    double a = least(unpack_all, seconds), b = least(write_all, seconds), c = least(run, seconds);
    printf("%-34s %7zu %14.0f us %9.0f us %14.2f ms\n", name, count, a * 1e6, b * 1e6, c * 1e3);
    return 0;
}

static void fresh(uint64_t number)
{
    count = total = 0;
    seed = 0x9d5c1f3b7a2e4681u + number;
}

int main(int argc, char **argv)
{
    program = argv[1];
    input = argv[2];
    double seconds = argc > 3 ? atof(argv[3]) : 1;
    int failed = 0;
    printf("%-34s %7s %17s %12s %17s\n", "bundle of 65,534 bytes", "entries", "read, unpack all", "write", "reduce, process");
    for (uint16_t kind = 1; kind <= 2; kind++) {
        char name[64];
        fresh(kind);
        add(kind, 511, 1024);
        add(kind, 13, 64);
        snprintf(name, sizeof name, "kind %d, 511x1024 and 13x64", kind);
        failed |= measure(name, seconds);
        fresh(16 + kind);
        add(kind, 511, 1000);
        add(kind, 13, 60);
        snprintf(name, sizeof name, "kind %d, 511x1000 and 13x60", kind);
        failed |= measure(name, seconds);
        fresh(32 + kind);
        for (int i = 0; i < 61; i++)
            add(kind, 132, 60);
        add(kind, 62, 60);
        snprintf(name, sizeof name, "kind %d, 62 of up to 132x60", kind);
        failed |= measure(name, seconds);
    }
    return failed;
}
