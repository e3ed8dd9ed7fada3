/* Holds each transition of a real Lua VM against the table of steps, and each activation's meter against L. The
   functions under test are the C twin's, or the proved library's with -DRATTLE. */
#include "lw.h"
#include "../c/twin.h"
#include <stdio.h>
#include <stdlib.h>
#include <string.h>

/* What a version's words are, and the names of its functions. */
#ifdef LUA53
enum { OPCODE = 63 };
#define lawendeb_successors lawendeb_successors_53
#define lawendeb_longest_run_3 lawendeb_longest_run_53
#define lawendeb_feed_4 lawendeb_feed_53
#else
enum { OPCODE = 127 };
#endif

#ifdef RATTLE
struct twin_successors lawendeb_successors(const uint32_t *words, size_t n, size_t p);
struct twin_run lawendeb_longest_run_3(const uint32_t *words, size_t n, const uint8_t *weights, size_t weights_n,
    uint8_t *marks, size_t marks_n, uint32_t *lengths, size_t lengths_n);
void lawendeb_begin_4(struct twin_meter *m);
void lawendeb_reset(struct twin_meter *m);
struct twin_answer lawendeb_feed_4(const uint32_t *words, size_t n, const uint8_t *weights, size_t weights_n,
    struct twin_meter *m, size_t q);
#define successors lawendeb_successors
#define longest_run lawendeb_longest_run_3
#define begin lawendeb_begin_4
#define reset lawendeb_reset
#define feed lawendeb_feed_4
#else
#define successors twin_successors
#define longest_run twin_longest_run
#define begin twin_begin
#define reset twin_reset
#define feed twin_feed
#endif

/* L and the meters count words here. */
static const uint8_t ones[TWIN_WEIGHTS] = {[0 ... TWIN_WEIGHTS - 1] = 1};

struct lw_function {
    struct lw_function *next;
    size_t n;
    uint32_t *words;
    struct twin_run run;
    uint32_t most; /* the highest count a meter showed */
};
enum { BUCKETS = 4096, OP_CLOSE = 54, OP_TAILCALL = 69, OP_RETURN = 70 };
static struct lw_function *functions[BUCKETS];
static unsigned long activations, words_run, steps, metered, services, reached, large, resumed[3];
static unsigned long by_opcode[128], interrupted[128]; /* words run, and words that a yield interrupted */

static unsigned op(const struct lw_function *f, size_t p) { return f->words[p] & OPCODE; }

static void fail(const struct lw_function *f, size_t from, size_t to, const char *what) {
    fprintf(stderr, "lw: %s: word %zu (opcode %u) to %zu of %zu, L %lu\n",
        what, from, op(f, from), to, f->n, (unsigned long)f->run.longest);
    exit(3);
}
static struct lw_function *function_of(const uint32_t *code, size_t n) {
    uint64_t h = 1469598103934665603u;
    for (size_t i = 0; i < n; i++) h = (h ^ code[i]) * 1099511628211u;
    struct lw_function **bucket = &functions[h % BUCKETS];
    for (struct lw_function *f = *bucket; f; f = f->next)
        if (f->n == n && !memcmp(f->words, code, n * 4)) return f;
    struct lw_function *f = calloc(1, sizeof *f);
    f->n = n;
    f->words = malloc(n * 4);
    memcpy(f->words, code, n * 4);
    uint8_t *marks = malloc(n);
    uint32_t *lengths = malloc(n * 4);
    f->run = longest_run(f->words, n, ones, sizeof ones, marks, n, lengths, n);
    free(marks);
    free(lengths);
    if (f->run.number == 1) large++;
    else if (f->run.number) fail(f, f->run.place, f->run.place, "a compiled function was refused");
    f->next = *bucket;
    return *bucket = f;
}
static void report(void) {
    unsigned long count = 0;
    for (size_t i = 0; i < BUCKETS; i++)
        for (struct lw_function *f = functions[i]; f; f = f->next) {
            count++;
            if (f->run.number == 0 && f->most == f->run.longest) reached++;
        }
    FILE *out = fopen(getenv("LW_COUNTS") ? getenv("LW_COUNTS") : "/dev/stderr", "a");
    fprintf(out, "functions %lu large %lu activations %lu words %lu steps %lu metered %lu services %lu reached %lu ",
        count, large, activations, words_run, steps, metered, services, reached);
    fprintf(out, "close %lu return %lu tailcall %lu\n", resumed[0], resumed[1], resumed[2]);
    for (unsigned o = 0; o < 128; o++)
        if (by_opcode[o]) fprintf(out, "opcode %u %lu\n", o, by_opcode[o]);
    for (unsigned o = 0; o < 128; o++)
        if (interrupted[o]) fprintf(out, "interrupted %u %lu\n", o, interrupted[o]);
    fclose(out);
}
void lw_enter(struct lw_activation *a, const uint32_t *code, int n) {
    if (!activations++) atexit(report);
    memset(a, 0, sizeof *a);
    a->function = function_of(code, (size_t)n);
    a->off = a->function->run.number == 1;
    a->last = SIZE_MAX;
}
static bool is_step(const struct lw_function *f, size_t p, size_t q) {
    struct twin_successors s = successors(f->words, f->n, p);
    return (s.kind >= 2 && s.first == q) || (s.kind == 3 && s.second == q);
}
/* What a resumed coroutine may do beside the table: CLOSE and RETURN are repeated to close further variables, and a
   TAILCALL whose C function yielded goes on to the RETURN after it. */
static int resumes(const struct lw_activation *a, size_t q) {
    if (!a->resumed || OPCODE == 63) return -1; /* in 5.3 nothing is */
    unsigned o = op(a->function, a->last);
    if (o == OP_CLOSE && q == a->last) return 0;
    if (o == OP_RETURN && q == a->last) return 1;
    if (o == OP_TAILCALL && q == a->last + 1) return 2;
    return -1;
}
void lw_word(struct lw_activation *a, size_t q) {
    struct lw_function *f = a->function;
    struct twin_meter *m = (struct twin_meter *)&a->meter;
    size_t p = a->last;
    words_run++;
    by_opcode[op(f, q)]++;
    if (p != SIZE_MAX) {
        if (a->resumed) interrupted[op(f, p)]++;
        int kind = resumes(a, q);
        if (kind >= 0) { resumed[kind]++; a->off = true; }
        else if (!is_step(f, p, q)) fail(f, p, q, "no step of the table");
        else steps++;
    } else {
        if (q != 0) fail(f, q, q, "an activation that does not start at word 0");
        if (!a->off) { begin(m); reset(m); }
    }
    if (!a->off) {
        uint32_t before = m->services;
        if (feed(f->words, f->n, ones, sizeof ones, m, q).number) fail(f, p == SIZE_MAX ? 0 : p, q, "a feed was refused");
        if (m->since > m->highest || m->highest > f->run.longest) fail(f, p, q, "a meter above L");
        services += m->services - before;
        metered++;
        if (m->highest > f->most) f->most = m->highest;
    }
    a->resumed = false;
    a->last = q;
}
