// Reduction, inverse and solving over GF(2), timed against libm4ri and against another build: see `run`.
//
//   bench SECONDS PART            prints the table
//   bench SECONDS PART PIPES..    for two builds: pipes to and from this build's process, to and from the other's
//   bench answer all|ours         such a process, for all methods or for ours
//
// Each problem has a dozen inputs, and on each of them every method's answer is first checked by arithmetic bit by bit. Then
// all methods run in turn, in another order each round, each on the dozen inputs one after the other (one input again and
// again would let the processor learn its branches), and each time on a fresh copy (the copying is not timed). A method's
// time is the mean over the inputs of the least time of all rounds. What is printed is the ratio of our time to that of
// libm4ri's best method: below 1 we are faster. Ratios only: the times themselves depend on the machine and on what else it
// does.
//
// `run` looks for the next line in both checkouts. Its number grows with every change of the lines asked and answered, of
// the problems and of their inputs.
// Protocol of compared builds: 1
#define _POSIX_C_SOURCE 200809L
#include <stdio.h>
#include <stdlib.h>
#include <string.h>
#include <time.h>

#include "calls.h"

// ---- the methods of a call, and the lines that its problems print

static const struct {
    const char *name;
    int how, k; // libm4ri chooses where k is 0
} methods[] = {{"reduction, k = 8", TWO_SLICES, 8},
               {"reduction, k = 7", TWO_SLICES, 7},
               {"k = 8", OURS, 8},
               {"k = 7", OURS, 7},
               {"m4ri", BY_TABLES, 0},
               {"m4ri, k = 3", BY_TABLES, 3},
               {"m4ri, k = 4", BY_TABLES, 4},
               {"m4ri, k = 5", BY_TABLES, 5},
               {"m4ri, k = 6", BY_TABLES, 6},
               {"m4ri, k = 7", BY_TABLES, 7},
               {"m4ri, k = 8", BY_TABLES, 8},
               {"pluq", BY_PLUQ, 0},
               {"echelonize", BY_CHOICE, 0}};
// where the table's parts begin
enum { AS_REDUCTION = 0, CALL = 2, THEIRS = 4, GIVEN_K = 5, PLUQ = 11, METHODS = sizeof methods / sizeof *methods };

typedef struct {
    int first, end; // its methods
    void (*run)(int how, int k);
    size_t (*room)(int k); // the words that it needs
    const char *(*wrong)(int how, int k);
    int refusal, refusing_end; // the number for spoiled input, and the end of the methods that must tell
    struct {
        const char *suffix;
        int ours, theirs, end; // two of ours, against the best of theirs
    } lines[3];
} call;

static const call reduce = {.first = CALL,
                            .end = METHODS,
                            .run = reduction,
                            .room = table_room,
                            .wrong = wrong_reduction,
                            .lines = {{"", CALL, THEIRS, METHODS}}};
static const call invert = {.first = AS_REDUCTION,
                            .end = PLUQ,
                            .run = inverse,
                            .room = inverse_room,
                            .wrong = wrong_inverse,
                            .refusal = CHHAYUBLO_NO_INVERSE,
                            .refusing_end = THEIRS,
                            .lines = {{"", CALL, THEIRS, PLUQ},
                                      {", mzd_inv", CALL, THEIRS, GIVEN_K},
                                      {", reduction", AS_REDUCTION, THEIRS, PLUQ}}};
static const call solve = {.first = CALL,
                           .end = METHODS,
                           .run = solving,
                           .room = table_room,
                           .wrong = wrong_solving,
                           .refusal = CHHAYUBLO_CONTRADICTORY,
                           .refusing_end = METHODS,
                           .lines = {{"", CALL, THEIRS, METHODS}}};

// ---- the problems

typedef struct {
    char name[40];
    const call *call;
    int rows, columns, blocks;
    void (*make)(bits *);
    uint64_t number; // its inputs are made from it
} problem;

static const struct {
    const char *name;
    void (*make)(bits *);
} kinds[] = {{"uniform", uniform}, {"half rank", half_rank}, {"rank 16", rank_16}, {"repeats", repeats},
             {"sparse", sparse},   {"identity", identity},   {"zero", zero}};

static const int shapes[][2] = {{512, 1024}, {512, 512}, {500, 1000}, {256, 512}, {64, 128}};
static const int sizes[] = {512, 256, 128};
static const int lists[][3] = {{512, 512, 512}, {256, 768, 320}}; // blocks, their bits, packets

enum { KINDS = sizeof kinds / sizeof *kinds, SHAPES = sizeof shapes / sizeof *shapes };
enum { SIZES = sizeof sizes / sizeof *sizes, LISTS = sizeof lists / sizeof *lists };

static problem problems[ROWS / 32 + SHAPES * KINDS + SIZES + LISTS];
static int problem_count;

// the next problem; its name is still to be given
static problem *list(const call *c, int rows, int columns, void (*make)(bits *), int number)
{
    problem *p = &problems[problem_count++];
    *p = (problem){.call = c, .rows = rows, .columns = columns, .make = make, .number = (uint64_t)number};
    return p;
}

static void list_all(void)
{
    for (int n = 32; n <= ROWS; n += 32) // for the picture alone
        sprintf(list(&reduce, n, 2 * n, uniform, 1024 + n)->name, "growing %dx%d", n, 2 * n);
    for (int s = 0; s < SHAPES; s++)
        for (int l = 0; l < KINDS; l++) {
            int rows = shapes[s][0], columns = shapes[s][1];
            sprintf(list(&reduce, rows, columns, kinds[l].make, 16 * s + l)->name, "%dx%d %s", rows, columns, kinds[l].name);
        }
    for (int s = 0; s < SIZES; s++)
        sprintf(list(&invert, sizes[s], sizes[s], invertible, 256 + s)->name, "inverse %d", sizes[s]);
    for (int s = 0; s < LISTS; s++) {
        const int *l = lists[s];
        problem *p = list(&solve, l[2], l[0] + l[1], packets, 512 + s);
        p->blocks = l[0];
        sprintf(p->name, "solving n%d p%d m%d", l[0], l[1], l[2]);
    }
}

static int begins(const char *line, const char *with) { return !strncmp(line, with, strlen(with)); }

static int asked_for(const problem *p, const char *part)
{
    return strstr(p->name, part) && (begins(part, "growing") || !begins(p->name, "growing"));
}

// ---- running and checking

static double seconds(void)
{
    struct timespec t;
    clock_gettime(CLOCK_MONOTONIC, &t);
    return (double)t.tv_sec + 1e-9 * (double)t.tv_nsec;
}

// one run of method x on a fresh copy of input l: its time
static double run(const call *c, int x, int l)
{
    int how = methods[x].how;
    if (how == TWO_SLICES)
        memcpy(words, beside[l], (size_t)input.rows * width(input.columns + input.rows) * 8);
    else if (how == OURS)
        memcpy(words, fresh[l], (size_t)input.rows * width(input.columns) * 8);
    else
        mzd_copy(theirs, their_fresh[l]);
    double start = seconds();
    c->run(how, methods[x].k);
    return seconds() - start;
}

// what is wrong with the answer that method x gives, or with its refusal of spoiled input; 0 if nothing is
static const char *wrong(const call *c, int x, int l, int spoiled)
{
    int how = methods[x].how, k = methods[x].k;
    litter();
    run(c, x, l);
    if (how == OURS && !room_clean(c->room(k)))
        return "work room";
    if ((how == OURS || how == TWO_SLICES) && said.refusal != (spoiled ? (uint64_t)c->refusal : 0))
        return "refusal";
    if (!spoiled)
        return c->wrong(how, k);
    if (how != OURS && their_known != -1)
        return "number of known blocks";
    return is_junk(result, sizeof result) && is_junk(marks, sizeof marks) ? 0 : "result, which must stay as it was";
}

// loads the input at hand as number l and checks methods on it: 1 if an answer was wrong
static int check(const problem *p, int l, int first, int end, int spoiled)
{
    int failed = 0;
    load(l, p->call->first == AS_REDUCTION);
    for (int x = first; x < end; x++) {
        const char *what = wrong(p->call, x, l, spoiled);
        if (what) {
            printf("%s, input %d%s: %s: wrong %s\n", p->name, l + 1, spoiled ? ", spoiled" : "", methods[x].name, what);
            failed = 1;
        }
    }
    return failed;
}

static const uint64_t SEED = 0x9d5c1f3b7a2e4681u;
static int least_rank, greatest_rank;

static int smaller(int a, int b) { return a < b ? a : b; }

// loads a problem's inputs and checks the methods before `end` on each: 1 if an answer was wrong
static int prepare(const problem *p, int end)
{
    static bits whole;
    const call *c = p->call;
    int failed = 0;
    blocks = p->blocks;
    resize_theirs(p->rows, p->columns);
    least_rank = ROWS;
    greatest_rank = 0;
    for (int l = 0; l < INPUTS; l++) {
        seed = SEED + p->number + 4096u * (uint64_t)l;
        clear(&input, p->rows, p->columns);
        p->make(&input);
        if (c->refusal) {
            whole = input;
            spoil(&input);
            failed |= check(p, l, CALL, smaller(end, c->refusing_end), 1);
            input = whole;
        }
        expect();
        failed |= check(p, l, c->first, smaller(end, c->end), 0);
        least_rank = smaller(least_rank, rank);
        greatest_rank = rank > greatest_rank ? rank : greatest_rank;
    }
    return failed;
}

// the times of method x on the inputs in turn. It begins with any of them, since the first run suffers from what ran before.
static void time_inputs(const call *c, int x, double *times)
{
    for (int i = 0, l = below(INPUTS); i < INPUTS; i++, l = (l + 1) % INPUTS)
        times[l] = run(c, x, l);
}

// ---- two builds: a process of each answers, and the one that prints asks them in turn

enum { THIS, OTHER };

static struct {
    FILE *asks, *answers;
} builds[2]; // the pipes to and from their processes; 0 where this build runs alone

static int compared(void) { return builds[THIS].asks != 0; }

static const char *build_name(int build) { return build == THIS ? "this build" : "the other build"; }

static void ask(int build, const char *what, const char *name)
{
    fprintf(builds[build].asks, "%s %s\n", what, name);
    fflush(builds[build].asks);
}

static const char *answer_of(int build)
{
    static char line[400];
    if (!fgets(line, sizeof line, builds[build].answers)) {
        printf("%s: ended without an answer\n", build_name(build));
        exit(1);
    }
    return line;
}

// lets a build's process load and check its inputs: 1 if an answer was wrong
static int ask_check(int build, const problem *p, unsigned long long *number)
{
    int failed = 0;
    ask(build, "check", p->name);
    for (;;) {
        const char *line = answer_of(build);
        if (sscanf(line, "ready %llx %d %d", number, &least_rank, &greatest_rank) == 3)
            return failed;
        printf("%s: %s", build_name(build), line);
        failed = 1;
    }
}

static int ask_both(const problem *p)
{
    unsigned long long numbers[2];
    int failed = ask_check(THIS, p, &numbers[THIS]);
    failed |= ask_check(OTHER, p, &numbers[OTHER]);
    if (numbers[THIS] != numbers[OTHER]) {
        printf("%s: the inputs of the two builds differ and cannot be compared\n", p->name);
        exit(2);
    }
    return failed;
}

static void ask_times(int build, int x, double *times)
{
    ask(build, "time", methods[x].name);
    const char *from = answer_of(build);
    for (int l = 0; l < INPUTS; l++) {
        char *end;
        times[l] = strtod(from, &end);
        from = end;
    }
}

static const problem *problem_named(const char *name)
{
    for (const problem *p = problems; p < problems + problem_count; p++)
        if (!strcmp(p->name, name))
            return p;
    fprintf(stderr, "no problem has the name %s\n", name);
    exit(2);
}

static int method_named(const char *name)
{
    for (int x = 0; x < METHODS; x++)
        if (!strcmp(methods[x].name, name))
            return x;
    fprintf(stderr, "no method has the name %s\n", name);
    exit(2);
}

// Answers standard input, for the methods before `end`:
//   check PROBLEM   a line for each wrong answer, then 'ready', a number made of the inputs, their least and greatest rank
//   time METHOD     the times of a method on the inputs, in seconds, in one line
static int answer(int end)
{
    char line[80];
    double times[INPUTS];
    const problem *p = 0;
    while (fgets(line, sizeof line, stdin)) {
        line[strcspn(line, "\n")] = 0;
        if (begins(line, "check ")) {
            p = problem_named(line + 6);
            prepare(p, end);
            printf("ready %llx %d %d\n", (unsigned long long)digest(), least_rank, greatest_rank);
        } else if (begins(line, "time ") && p) {
            time_inputs(p->call, method_named(line + 5), times);
            for (int l = 0; l < INPUTS; l++)
                printf("%.9f%c", times[l], l < INPUTS - 1 ? ' ' : '\n');
        } else {
            return 2;
        }
        fflush(stdout);
    }
    return 0;
}

// ---- measuring

static double least[2][METHODS][INPUTS]; // the least time of each build's methods on each input

static void step(int build, const call *c, int x)
{
    double times[INPUTS];
    if (compared())
        ask_times(build, x, times);
    else
        time_inputs(c, x, times);
    for (int l = 0; l < INPUTS; l++)
        if (times[l] < least[build][x][l])
            least[build][x][l] = times[l];
}

// rounds until the time is up, our methods in both builds one right after the other: how many rounds
static int measure(const call *c, double time)
{
    int order[METHODS], rounds = 0;
    for (int x = c->first; x < c->end; x++) {
        order[x] = x;
        for (int l = 0; l < INPUTS; l++)
            least[THIS][x][l] = least[OTHER][x][l] = 1e9;
    }
    for (double end = seconds() + time; rounds < 10 || seconds() < end; rounds++) {
        for (int l = c->end - 1; l > c->first; l--) { // a random order
            int other = c->first + below(l + 1 - c->first), x = order[l];
            order[l] = order[other];
            order[other] = x;
        }
        for (int l = c->first; l < c->end; l++) {
            int both = compared() && order[l] < THEIRS, build = both ? coin() : THIS;
            step(build, c, order[l]);
            if (both)
                step(!build, c, order[l]);
        }
    }
    return rounds;
}

static double mean(int build, int x)
{
    double sum = 0;
    for (int l = 0; l < INPUTS; l++)
        sum += least[build][x][l];
    return sum / INPUTS;
}

// ---- the table

static void print_header(void)
{
    printf("%-22s %7s %8s %8s    %-24s %6s", "problem", "rank", "k = 8", "k = 7", "libm4ri's best", "rounds");
    puts(compared() ? "   new/old k = 8   new/old k = 7" : "");
}

static void print_lines(const problem *p, int rounds)
{
    const call *c = p->call;
    char ranks[24];
    int length = sprintf(ranks, "%d", least_rank);
    if (greatest_rank > least_rank)
        sprintf(ranks + length, "-%d", greatest_rank);
    for (int l = 0; l < 3 && c->lines[l].suffix; l++) {
        int ours = c->lines[l].ours, best = c->lines[l].theirs;
        for (int x = best; x < c->lines[l].end; x++)
            if (mean(THIS, x) < mean(THIS, best))
                best = x;
        double new_8 = mean(THIS, ours), new_7 = mean(THIS, ours + 1), their_time = mean(THIS, best);
        printf("%s%-*s %7s %8.2f %8.2f    %7.1f us, %-12s %6d", p->name, 22 - (int)strlen(p->name), c->lines[l].suffix,
               ranks, new_8 / their_time, new_7 / their_time, 1e6 * their_time, methods[best].name, rounds);
        if (compared())
            printf("   %13.2f   %13.2f", new_8 / mean(OTHER, ours), new_7 / mean(OTHER, ours + 1));
        puts("");
    }
    fflush(stdout);
}

int main(int argc, char **argv)
{
    list_all();
    if (argc == 3 && !strcmp(argv[1], "answer"))
        return answer(strcmp(argv[2], "ours") ? METHODS : THEIRS);
    if (argc != 3 && argc != 7)
        return 2;
    for (int build = THIS; build <= OTHER && argc == 7; build++)
        if (!(builds[build].asks = fopen(argv[3 + 2 * build], "w")) ||
            !(builds[build].answers = fopen(argv[4 + 2 * build], "r")))
            return 2;
    int failed = 0;
    seed = SEED;
    print_header();
    for (const problem *p = problems; p < problems + problem_count; p++)
        if (asked_for(p, argv[2])) {
            failed |= compared() ? ask_both(p) : prepare(p, METHODS);
            print_lines(p, measure(p->call, atof(argv[1])));
        }
    return failed;
}
