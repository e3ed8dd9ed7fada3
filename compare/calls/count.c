/* Counts in a real Lua what runs without a service, by the firmware's rule: entering a Lua function serves, and so does
   a step that does not go forward; a call of a C function does not, and a return does not. Each activation has a meter
   of the proved library. At each word what has run since the last service is held against what crates/calls proves:
   `left` plus the count of the running meter (with coroutines the counts of all that are alive), and the sum of L of
   the activations on the way back. Beside it the other rule, by which no entry serves. */
#include <stdbool.h>
#include <stdio.h>
#include <stdlib.h>
#include <string.h>

#include "lawendeb.h"
#include "lobject.h"
#include "lstate.h"

#include "count.h"

struct function {
    struct function *next;
    const Proto *p;
    size_t n;
    uint32_t *words;
    uint64_t number, longest; /* of its run */
};

struct activation {
    const CallInfo *ci;
    struct function *function;
    struct lawendeb_meter meter;
    size_t last;
    unsigned long period; /* the last service after which it ran a word */
    bool apart;           /* over 32,768 words, or went on after a yield where no step is */
};

/* The activations of a thread, and all threads. */
struct thread {
    struct thread *next;
    const lua_State *L;
    struct activation *stack;
    size_t n, room;
};

static uint8_t ones[LAWENDEB_WEIGHTS];
static struct function *functions[4096];
static struct thread *threads;
static const Proto *main_function;
static FILE *trace;
static int wrong; /* a bound that is wrong on purpose: 1 the running meter alone, 2 the largest L, 3 where no entry serves */

static bool several; /* threads: coroutines */
static unsigned long words, entries, alive, apart_words, after_yields;
static unsigned long period;     /* services */
static uint64_t since, left, on_the_way_back, quiet;
static bool apart;               /* of what ran since the last service */
static unsigned long below;      /* words at which the meters alive sum to less than has run */
static uint64_t most_since, most_sum, most_quiet, most_alive, largest;

static void fail(const char *what, const struct activation *a, size_t q) {
    fprintf(stderr, "count: %s: word %zu to %zu, since %lu, left %lu, sum of L %lu\n", what, a ? a->last : 0, q,
        (unsigned long)since, (unsigned long)left, (unsigned long)on_the_way_back);
    exit(3);
}

static void report(void) {
    FILE *out = fopen(getenv("COUNTS") ? getenv("COUNTS") : "/dev/stderr", "a");
    fprintf(out, "words %lu entries %lu deep %lu largest %lu since %lu sum %lu below %lu apart %lu yields %lu quiet %lu\n",
        words, entries, (unsigned long)most_alive, (unsigned long)largest, (unsigned long)most_since, (unsigned long)most_sum,
        below, apart_words, after_yields, (unsigned long)most_quiet);
    fclose(out);
    if (trace) fprintf(trace, "\n"), fclose(trace);
}

/* Protos may be collected and their memory used again: the words tell them apart. */
static struct function *function_of(const Proto *p) {
    struct function **bucket = &functions[((size_t)p >> 4) % 4096];
    size_t n = (size_t)p->sizecode;
    for (struct function *f = *bucket; f; f = f->next)
        if (f->p == p && f->n == n && !memcmp(f->words, p->code, 4 * n)) return f;
    struct function *f = calloc(1, sizeof *f);
    uint8_t *marks = malloc(n);
    uint32_t *lengths = malloc(4 * n);
    f->p = p, f->n = n, f->words = malloc(4 * n);
    memcpy(f->words, p->code, 4 * n);
    struct lawendeb_run run = lawendeb_longest_run(f->words, n, ones, sizeof ones, marks, n, lengths, n);
    free(marks), free(lengths);
    if (run.number > 1) fail("a compiled function was refused", NULL, run.place);
    f->number = run.number, f->longest = run.longest;
    if (run.longest > largest) largest = run.longest;
    f->next = *bucket;
    return *bucket = f;
}

/* The number of a function, as chunk_list has it: each before those within it. */
static bool number_within(const Proto *p, const Proto *wanted, unsigned *k) {
    if (p == wanted) return true;
    for (int i = 0; i < p->sizep; i++) {
        ++*k;
        if (number_within(p->p[i], wanted, k)) return true;
    }
    return false;
}
static void traced(const char *move, const Proto *p) {
    unsigned k = 0;
    if (!trace) return;
    if (p && !number_within(main_function, p, &k)) fail("a function that the chunk has not", NULL, 0);
    fprintf(trace, entries ? "\n%s" : "%s", move);
    if (p) fprintf(trace, " %u", k);
}

static struct thread *thread_of(const lua_State *L) {
    for (struct thread *t = threads; t; t = t->next)
        if (t->L == L) return t;
    struct thread *t = calloc(1, sizeof *t);
    several = threads != NULL;
    t->L = L, t->next = threads;
    return threads = t;
}

/* The innermost activation leaves: its count goes with its meter. */
static void leave(struct thread *t) {
    left += t->stack[--t->n].meter.count;
    alive--;
    traced("leave", NULL);
}
static const CallInfo *lua_below(const CallInfo *ci) {
    do ci = ci->previous;
    while (ci && !isLua(ci));
    return ci;
}

/* A service, and then a word of a: that word alone has run since. */
static void served(struct activation *a) {
    period++;
    since = 1, left = 0, on_the_way_back = a->function->longest, apart = a->apart;
    a->period = period;
}

void count_enter(lua_State *L, CallInfo *ci, const Proto *p) {
    struct thread *t;
    const CallInfo *below_it = lua_below(ci);
    bool tail;
    if (!main_function) {
        main_function = p;
        memset(ones, 1, sizeof ones);
        if (getenv("TRACE")) trace = fopen(getenv("TRACE"), "w");
        if (getenv("WRONG")) wrong = atoi(getenv("WRONG"));
        atexit(report);
    }
    t = thread_of(L);
    /* a tail call takes the place of the one that runs; an error took away what lies above the caller */
    tail = (ci->callstatus & CIST_TAIL) && t->n && t->stack[t->n - 1].ci == ci;
    if (tail) t->n--, alive--;
    else while (t->n && t->stack[t->n - 1].ci != below_it) leave(t);
    traced(tail ? "tail" : "call", p);
    if (t->n == t->room) {
        t->room = 2 * t->room + 16;
        t->stack = realloc(t->stack, t->room * sizeof *t->stack);
    }
    struct activation *a = &t->stack[t->n++];
    memset(a, 0, sizeof *a);
    a->ci = ci, a->function = function_of(p), a->last = SIZE_MAX, a->apart = a->function->number != 0;
    lawendeb_begin(&a->meter);
    lawendeb_reset(&a->meter);
    entries++;
    if (++alive > most_alive) most_alive = alive;
}

/* After a yield within the word CLOSE and RETURN are repeated, and a TAILCALL goes on: docs/DIFFERENCES.md. */
static bool after_yield(const struct activation *a, size_t q) {
    enum { CLOSE = 54, TAILCALL = 69, RETURN = 70 };
    unsigned op = a->function->words[a->last] & 127;
    return (q == a->last && (op == CLOSE || op == RETURN)) || (q == a->last + 1 && op == TAILCALL);
}

void count_word(lua_State *L, CallInfo *ci, size_t q) {
    struct thread *t = thread_of(L);
    while (t->n && t->stack[t->n - 1].ci != ci) leave(t);
    if (!t->n) fail("a word of no activation", NULL, q);
    struct activation *a = &t->stack[t->n - 1];
    struct function *f = a->function;
    bool first = a->last == SIZE_MAX, stays = !first && q <= a->last;
    uint64_t shown = 0;
    words++;
    if (trace) fprintf(trace, " %zu", q);
    if (!a->apart) {
        uint64_t number = lawendeb_feed(f->words, f->n, ones, sizeof ones, &a->meter, q).number;
        if (number == LAWENDEB_NO_STEP && !first && after_yield(a, q)) a->apart = true, after_yields++;
        else if (number) fail("a feed was refused", a, q);
    }
    quiet = stays ? 1 : quiet + 1;
    if (quiet > most_quiet) most_quiet = quiet;
    if (first || stays) served(a);
    else {
        since++;
        if (a->period != period) a->period = period, on_the_way_back += f->longest;
        apart |= a->apart;
    }
    a->last = q;
    if (apart) {
        apart_words++;
        return;
    }
    for (struct thread *o = threads; o; o = o->next)
        for (size_t i = 0; i < o->n; i++) shown += o->stack[i].meter.count;
    if (since > shown) below++;
    if (!several) shown = a->meter.count;
    if (since > left + shown) fail("more has run than the meters tell", a, q);
    if (!several && left + shown > on_the_way_back) fail("the meters tell more than the sum of L", a, q);
    if (since > on_the_way_back) fail("more has run than the sum of L", a, q);
    if (since > most_alive * largest) fail("more has run than d times the largest L", a, q);
    if ((wrong == 1 && since > shown) || (wrong == 2 && since > largest) || (wrong == 3 && quiet > most_alive * largest))
        fail("wrong on purpose", a, q);
    if (since > most_since) most_since = since, most_sum = on_the_way_back;
}

void count_leave(lua_State *L, CallInfo *ci) {
    struct thread *t = thread_of(L);
    while (t->n && t->stack[t->n - 1].ci != ci) leave(t);
    if (!t->n) fail("a return of no activation", NULL, 0);
    leave(t);
}

/* A thread's memory is used again. */
void count_free(lua_State *L) {
    for (struct thread **t = &threads; *t; t = &(*t)->next)
        if ((*t)->L == L) {
            struct thread *gone = *t;
            while (gone->n) leave(gone);
            *t = gone->next;
            free(gone->stack), free(gone);
            return;
        }
}
