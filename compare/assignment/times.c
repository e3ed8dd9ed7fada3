/* times REAL [ROUNDS]: the time of lawendeb_definite_assignment and of both searches of the twin, over the functions of
   REAL (real.txt) with their own parameter counts, over random functions, and over functions made to be slow. A row has
   the nanoseconds a word and the milliseconds of one pass over the row's functions, in processor time; best of the
   rounds, the sides take turns in each. */
#include "lawendeb.h"
#include "twin.h"
#include <stdio.h>
#include <stdlib.h>
#include <string.h>
#include <time.h>

enum { MOST = LAWENDEB_MOST_WORDS, FUNCTIONS = 4096 };
enum { MOVE, LOADI, LOADNIL = 8, SETTABLE = 16, ADD = 34, MMBIN = 46, CLOSE = 54, JMP = 56, TEST = 66, RETURN0 = 71,
       FORLOOP = 73, SETLIST = 78 };

static uint32_t pool[1 << 22];
static struct function { const uint32_t *words; size_t n; uint8_t parameters; } row[FUNCTIONS];
static size_t used, rows;
static uint8_t marks[MOST];
static uint64_t random_state = 88172645463325252ull;

static uint64_t chance(uint64_t below) {
    random_state ^= random_state << 13, random_state ^= random_state >> 7, random_state ^= random_state << 17;
    return (random_state >> 11) % below;
}
static uint32_t abc(unsigned op, unsigned a, unsigned b, unsigned c) { return op | a << 7 | b << 16 | c << 24; }
static uint32_t jump(size_t p, size_t q) { return JMP | (uint32_t)(q - p - 1 + 16777215) << 7; }
static uint32_t *begin(void) { return pool + used; }
static void end(size_t n, uint8_t parameters) {
    if (rows == FUNCTIONS || used + n > sizeof pool / sizeof *pool - MOST) exit(2);
    row[rows++] = (struct function){pool + used, n, parameters};
    used += n;
}
static void clear(void) { used = rows = 0; }

static void real(const char *path) {
    static char line[1 << 20];
    FILE *in = fopen(path, "r");
    if (!in) exit(2);
    while (fgets(line, sizeof line, in)) {
        uint32_t *w = begin();
        size_t n = 0;
        char *parameters = strtok(line, " \n");
        for (char *word = strtok(NULL, " \n"); word; word = strtok(NULL, " \n"))
            w[n++] = (uint32_t)strtoul(word, NULL, 10);
        end(n, (uint8_t)atoi(parameters));
    }
    fclose(in);
}

/* Registers are set one after the other, at even distances; between them MOVE, ADD with MMBIN, and TEST with JMP to
   near words, of registers that are set by then. No jump passes over a setter. */
static void mixed(size_t n, unsigned registers) {
    uint32_t *w = begin();
    size_t p = 0, part = (n - 1) / registers;
    if (part < 3) part = 3;
    for (unsigned held = 1; held <= registers && p + part < n; held++) {
        size_t last = held == registers || p + 2 * part >= n ? n - 1 : p + part; /* not among these */
        w[p++] = abc(LOADI, held - 1, 0, 0);
        while (p + 2 < last) {
            unsigned a = (unsigned)chance(held), b = (unsigned)chance(held), c = (unsigned)chance(held);
            switch (chance(4)) {
            case 0: w[p++] = abc(ADD, a, b, c), w[p++] = abc(MMBIN, b, c, 6); break;
            case 1: {
                size_t most = last < p + 40 ? last : p + 40;
                size_t q = chance(6) ? p + 2 + chance(most - p - 1) : p - chance(p < 40 ? p + 1 : 40);
                w[p++] = abc(TEST, a, 0, 0), w[p] = jump(p, q), p++;
                break;
            }
            default: w[p++] = abc(MOVE, a, b, 0);
            }
        }
        while (p < last) w[p++] = abc(MOVE, 0, 0, 0);
    }
    while (p < n - 1) w[p++] = abc(MOVE, 0, 0, 0);
    w[p++] = abc(RETURN0, 0, 1, 0);
    /* a jump into a pair leads to its second word: good, for the first stands before it */
    end(p, 0);
}

static size_t room(size_t p, size_t end, size_t words) { return p + words <= end; }

enum shape { STRAIGHT, TESTS, TO_AND_FRO, BACK, SCATTERED, PAIRS, THREE, LOOPS, SHAPES };
static const char *const shapes[SHAPES] = {"straight", "tests", "jumps to and fro", "back from everywhere",
                                           "scattered tests", "arithmetic", "three reads a word", "loops"};

/* Four parameters. Two SETLIST at the end read registers 0 to 510, all that can be read; `set`: two LOADNIL right
   before set them. In front as many words of the shape given as there is room for, which set nothing but parameters. */
static void slow(enum shape shape, int set) {
    uint32_t *w = begin();
    size_t n = MOST, body = n - 3 - (set ? 2 : 0), p = 0;
    switch (shape) {
    case TESTS: /* and a JMP over the next pair */
        for (; room(p, body, 2); p += 2)
            w[p] = abc(TEST, 0, 0, 0), w[p + 1] = jump(p + 1, p + 4 < body ? p + 4 : p + 2);
        break;
    case TO_AND_FRO: /* 0, body-1, 1, body-2, .. */
        for (size_t half = body / 2; p < half; p++) {
            w[p] = jump(p, body - 1 - p);
            w[body - 1 - p] = jump(body - 1 - p, p + 1 < half ? p + 1 : body);
        }
        for (; p < body - body / 2; p++) w[p] = jump(p, body);
        p = body;
        break;
    case BACK:
        for (; room(p, body, 2); p += 2) w[p] = abc(TEST, 0, 0, 0), w[p + 1] = jump(p + 1, 1);
        break;
    case SCATTERED:
        for (; room(p, body, 2); p += 2) w[p] = abc(TEST, 0, 0, 0), w[p + 1] = jump(p + 1, 2 * chance(body / 2));
        break;
    case PAIRS:
        for (; room(p, body, 2); p += 2) w[p] = abc(ADD, 0, 1, 2), w[p + 1] = abc(MMBIN, 1, 2, 6);
        break;
    case THREE:
        for (; room(p, body, 1); p++) w[p] = abc(SETTABLE, 0, 2, 1);
        break;
    case LOOPS: /* FORLOOP 0, back by some words */
        for (; room(p, body, 1); p++) w[p] = FORLOOP | (uint32_t)(p + 1 < 9 ? p + 1 : 9) << 15;
        break;
    default: break;
    }
    for (; p < body; p++) w[p] = abc(CLOSE, 0, 0, 0);
    if (set) w[p++] = abc(LOADNIL, 0, 255, 0), w[p++] = abc(LOADNIL, 255, 255, 0);
    w[p++] = abc(SETLIST, 0, 255, 0), w[p++] = abc(SETLIST, 255, 255, 0);
    w[p++] = abc(RETURN0, 0, 0, 0);
    end(p, 4);
}

/* One parameter, which is tested: 510 ways, on each of which other registers are set (all below, and if it is below
   255 all above), join a line of words one after the other, so that the registers come to the second half one at a
   time, if many are looked at together. */
static void one_at_a_time(void) {
    uint32_t *w = begin();
    enum { WAYS = 510, WAY = 5 };
    size_t n = MOST, ways = 2 * WAYS + 1, line = ways + WAYS * WAY, p = 0;
    for (unsigned i = 0; i < WAYS; i++, p += 2) w[p] = abc(TEST, 0, 0, 0), w[p + 1] = jump(p + 1, ways + i * WAY);
    w[p++] = abc(RETURN0, 0, 0, 0);
    for (unsigned r = 1; r <= WAYS; r++) {
        for (int i = 0; i < 4; i++) w[p + i] = abc(CLOSE, 0, 0, 0);
        if (r > 1) w[p] = abc(LOADNIL, 1, r - 2 < 255 ? r - 2 : 255, 0); /* 1 to r-1, to 256 at most */
        if (r > 257) w[p + 1] = abc(LOADNIL, 255, r - 1 - 255, 0);       /* 255 to r-1 */
        if (r < 255) w[p + 2] = abc(LOADNIL, r + 1, 255, 0), w[p + 3] = abc(LOADNIL, 255, 255, 0); /* all above */
        p += 4;
        w[p] = jump(p, line + 25 * r);
        p++;
    }
    for (; p < n - 3; p++) w[p] = abc(CLOSE, 0, 0, 0);
    w[p++] = abc(SETLIST, 0, 255, 0), w[p++] = abc(SETLIST, 255, 255, 0);
    w[p++] = abc(RETURN0, 0, 0, 0);
    end(p, 1);
}

/* Every word reads 256 registers and sets one that is read elsewhere: SETLIST, with LOADI between. */
static void dense(void) {
    uint32_t *w = begin();
    size_t n = MOST;
    for (size_t p = 0; p < n - 1; p++)
        w[p] = p & 1 ? abc(SETLIST, (unsigned)(p / 2 % 256), 255, 0) : abc(LOADI, (unsigned)(p / 2 * 37 % 256), 0, 0);
    w[0] = abc(LOADNIL, 0, 255, 0), w[1] = abc(LOADNIL, 255, 255, 0);
    w[n - 1] = abc(RETURN0, 0, 0, 0);
    end(n, 0);
}

/* One parameter. MOVE reads registers from 255 down, at a distance; right before LOADNIL sets them, and in front as many
   words as there is room for touch nothing. */
static void spread(unsigned distance) {
    uint32_t *w = begin();
    size_t n = MOST, p = 0;
    while (p < n - 2 - (255 - 1) / distance - 1) w[p++] = abc(CLOSE, 0, 0, 0);
    w[p++] = abc(LOADNIL, 0, 255, 0);
    for (unsigned r = 255; p < n - 1; r -= distance) w[p++] = abc(MOVE, 0, r, 0);
    w[p++] = abc(RETURN0, 0, 0, 0);
    end(p, 1);
}

static double now(void) {
    struct timespec t;
    clock_gettime(CLOCK_THREAD_CPUTIME_ID, &t);
    return 1e9 * (double)t.tv_sec + (double)t.tv_nsec;
}

static struct twin_answer library(const uint32_t *w, size_t n, uint8_t parameters, uint8_t *m, size_t m_n) {
    struct lawendeb_answer got = lawendeb_definite_assignment(w, n, parameters, m, m_n);
    return (struct twin_answer){got.number, got.place};
}

static void times(const char *name, int rounds) {
    struct twin_answer (*const side[3])(const uint32_t *, size_t, uint8_t, uint8_t *, size_t) = {library, twin_search,
                                                                                                 twin_blocks};
    double best[3] = {1e18, 1e18, 1e18};
    size_t accepted = 0, unset = 0, reached = 0;
    for (size_t i = 0; i < rows; i++) {
        struct twin_answer want = twin_search(row[i].words, row[i].n, row[i].parameters, marks, MOST);
        for (int s = 0; s < 3; s++) {
            struct twin_answer got = side[s](row[i].words, row[i].n, row[i].parameters, marks, MOST);
            if (got.number != want.number || got.place != want.place) {
                printf("%s: side %d differs from the twin at function %zu\n", name, s, i);
                exit(1);
            }
        }
        accepted += want.number == 0, unset += want.number == 17;
        for (size_t p = 0; p < row[i].n; p++) reached += marks[p];
    }
    for (int round = 0; round < rounds; round++)
        for (int s = 0; s < 3; s++) {
            double start = now();
            for (size_t i = 0; i < rows; i++) side[s](row[i].words, row[i].n, row[i].parameters, marks, MOST);
            double took = now() - start;
            if (took < best[s]) best[s] = took;
        }
    printf("| %s | %zu | %zu | %zu | %zu, %zu |", name, rows, used, reached, accepted, unset);
    for (int s = 0; s < 3; s++) printf(" %.1f | %.3f |", best[s] / (double)used, best[s] / 1e6);
    printf(" %.2f |\n", best[0] / best[1]);
    clear();
}

int main(int count, char **arguments) {
    char name[64];
    if (count < 2) return 2;
    int rounds = count > 2 ? atoi(arguments[2]) : 5;
    printf("| row | functions | words | reachable | 0, 17 | library ns a word | ms | twin, search ns | ms "
           "| twin, blocks ns | ms | library / search |\n|---|---|---|---|---|---|---|---|---|---|---|---|\n");
    real(arguments[1]);
    times("real functions", 10 * rounds);
    static const size_t sizes[3] = {64, 1024, MOST};
    static const unsigned registers[2] = {8, 100};
    for (int i = 0; i < 3; i++)
        for (int j = 0; j < 2; j++) {
            for (size_t k = 0; k < (sizes[i] == MOST ? 4 : 32); k++) mixed(sizes[i], registers[j]);
            snprintf(name, sizeof name, "random, %zu words, %u registers", sizes[i], registers[j]);
            times(name, rounds);
        }
    for (int shape = 0; shape < SHAPES; shape++)
        for (int set = 0; set < 2; set++) {
            slow((enum shape)shape, set);
            snprintf(name, sizeof name, "all registers, %s, %s", shapes[shape], set ? "set last" : "never set");
            times(name, rounds);
        }
    one_at_a_time();
    times("all registers, one way for each", rounds);
    dense();
    times("256 registers read by every other word", rounds);
    static const unsigned distances[3] = {255, 21, 1};
    for (int i = 0; i < 3; i++) {
        spread(distances[i]);
        snprintf(name, sizeof name, "registers from 255 down, %u apart, read and set last", distances[i]);
        times(name, rounds);
    }
    return 0;
}
