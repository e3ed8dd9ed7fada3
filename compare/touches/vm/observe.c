/* Holds each access of a real Lua VM to a register, a constant or an upvalue of the function that runs against the lists
   of the proved library. Each word's accesses are closed where the activation takes up its next word, which is the step
   taken. At the end: what was listed for the words that ran, and what of it was seen. */
#define LUA_CORE
#include "lprefix.h"
#include "lua.h"
#include "lfunc.h"
#include "lobject.h"
#include "lopcodes.h"
#include "lstate.h"
#include "lawendeb.h"
#include <stdio.h>
#include <stdlib.h>
#include <string.h>

/* What differs between the versions: where values lie, and what is not held against the lists. "CALL, TAILCALL, TFORCALL and
   CONCAT go by their formulas", so copies and temporaries of theirs are not listed; VARARGPREP is left out. */
#if LUA_VERSION_NUM == 503
#define touches_of lawendeb_touches_53
#define AT(place) (place)
#define VALUE(place) (place)
#define BASE(ci) ((ci)->u.l.base)
enum { OPCODE = 63, OP_LAST_RETURN = OP_RETURN, OP_PREPARES = OP_EXTRAARG };
#else
#define touches_of lawendeb_touches
#define AT(place) ((place).p)
#define VALUE(place) s2v(place)
#define BASE(ci) ((ci)->func.p + 1)
enum { OPCODE = 127, OP_LAST_RETURN = OP_RETURN1, OP_PREPARES = OP_VARARGPREP };
#endif

/* What was seen of a word in all its executions: writes by step, the edge of the list apart. */
struct seen {
    struct lawendeb_touched listed;
    unsigned long times, over_edge, elsewhere;
    uint64_t reads[OBSERVED_REGISTERS / 64], writes[OBSERVED_REGISTERS / 64], edge_writes[OBSERVED_REGISTERS / 64];
    bool constants[3], upvalues[3], upvalue_writes[3];
};
struct observed_function {
    struct observed_function *next;
    size_t n;
    uint32_t *words;
    struct seen *seen;
};
enum { BUCKETS = 4096 };
static struct observed_function *functions[BUCKETS];
static lua_State *thread;
static CallInfo *results_for;
static unsigned long words_run, accesses, extra_accesses;

static unsigned opcode_of(const struct observed_function *f, size_t p) { return f->words[p] & OPCODE; }

static bool by_formula(unsigned o) {
    return o == OP_CALL || o == OP_TAILCALL || o == OP_TFORCALL || o == OP_CONCAT || o == OP_PREPARES;
}
static void set(uint64_t *bits, size_t i) { bits[i / 64] |= 1ull << i % 64; }
static bool get(const uint64_t *bits, size_t i) { return bits[i / 64] >> i % 64 & 1; }

static bool in_ranges(const struct lawendeb_ranges *r, size_t i) {
    for (unsigned j = 0; j < r->count; j++)
        if (r->items[j].first <= i && i <= r->items[j].last) return true;
    return false;
}
static bool in_top(const struct lawendeb_top *t, size_t i) { return t->count && t->first <= i; }
static int in_indices(const struct lawendeb_indices *r, uint32_t i) {
    for (unsigned j = 0; j < r->count; j++)
        if (r->items[j] == i) return (int)j;
    return -1;
}
static void fail(const struct observed_function *f, size_t p, const char *what, size_t which) {
    fprintf(stderr, "observe: word %zu of %zu (opcode %u, %u) %s %zu, which is not listed\n", p, f->n, opcode_of(f, p),
            f->words[p], what, which);
    exit(3);
}
static struct observed_function *function_of(const uint32_t *code, size_t n) {
    uint64_t h = 1469598103934665603u;
    for (size_t i = 0; i < n; i++) h = (h ^ code[i]) * 1099511628211u;
    struct observed_function **bucket = &functions[h % BUCKETS];
    for (struct observed_function *f = *bucket; f; f = f->next)
        if (f->n == n && !memcmp(f->words, code, n * 4)) return f;
    struct observed_function *f = calloc(1, sizeof *f);
    f->n = n;
    f->words = malloc(n * 4);
    memcpy(f->words, code, n * 4);
    f->seen = calloc(n, sizeof *f->seen);
    const char *emptied = getenv("EMPTIED");
    for (size_t p = 0; p < n; p++)
        if (!emptied || opcode_of(f, p) != (unsigned)atoi(emptied)) f->seen[p].listed = touches_of(f->words, n, p);
    f->next = *bucket;
    return *bucket = f;
}

/* The word's accesses are all listed; `step` is the word taken up next, or n if the function is left. */
static void close_word(struct observed *o, size_t step) {
    struct observed_function *f = o->function;
    size_t p = o->word;
    struct seen *s = &f->seen[p];
    const struct lawendeb_touched *t = &s->listed;
    bool edge = t->edge_writes.count && step == t->edge, loose = by_formula(opcode_of(f, p));
    o->open = false;
    words_run++;
    s->times++;
    if (edge) s->over_edge++;
    else s->elsewhere++;
    for (size_t i = 0; i < OBSERVED_REGISTERS; i++) {
        if (get(o->reads, i)) {
            accesses++;
            if (in_ranges(&t->reads, i) || in_top(&t->reads_to_top, i)) set(s->reads, i);
            else if (loose) extra_accesses++;
            else fail(f, p, "read register", i);
        }
        if (get(o->writes, i)) {
            accesses++;
            bool plain = in_ranges(&t->writes, i) || in_top(&t->writes_to_top, i), only = in_ranges(&t->edge_writes, i);
            if (plain) set(s->writes, i);
            if (only && edge) set(s->edge_writes, i);
            if (only && !edge && !plain) fail(f, p, "wrote on another step register", i);
            if (!plain && !only) {
                if (loose) extra_accesses++;
                else fail(f, p, "wrote register", i);
            }
        }
    }
    for (unsigned j = 0; j < o->constants_n; j++) {
        int at = in_indices(&t->constants, o->constants[j]);
        accesses++;
        if (at < 0) fail(f, p, "read constant", o->constants[j]);
        s->constants[at] = true;
    }
    for (unsigned j = 0; j < o->upvalues_n; j++) {
        int at = in_indices(&t->upvalues, o->upvalues[j]);
        accesses++;
        if (at < 0) fail(f, p, "read upvalue", o->upvalues[j]);
        s->upvalues[at] = true;
    }
    for (unsigned j = 0; j < o->upvalue_writes_n; j++) {
        int at = in_indices(&t->upvalue_writes, o->upvalue_writes[j]);
        accesses++;
        if (at < 0) fail(f, p, "wrote upvalue", o->upvalue_writes[j]);
        s->upvalue_writes[at] = true;
    }
}

static void report(void);
static bool leaves(unsigned o) { return o == OP_TAILCALL || (OP_RETURN <= o && o <= OP_LAST_RETURN); }

/* What an error or a return left open: a return is complete, another word was not. */
void observe_call(CallInfo *ci) {
    struct observed *o = &ci->observed;
    if (o->open && leaves(opcode_of(o->function, o->word))) close_word(o, o->function->n);
    o->open = false;
}
void observe_enter(CallInfo *ci) {
    static bool registered;
    if (!registered) {
        registered = true;
        atexit(report);
    }
    observe_call(ci); /* a tail call keeps its activation */
    LClosure *cl = clLvalue(VALUE(AT(ci->func)));
    ci->observed.function = function_of(cl->p->code, (size_t)cl->p->sizecode);
}
void observe_word(lua_State *L, CallInfo *ci, size_t word) {
    struct observed *o = &ci->observed;
    thread = L;
    if (o->open) close_word(o, word);
    struct observed_function *f = o->function;
    memset(o, 0, sizeof *o);
    o->function = f;
    o->word = word;
    o->closure = clLvalue(VALUE(AT(ci->func)));
    o->base = (char *)BASE(ci) - (char *)AT(L->stack);
    o->open = true;
}
void observe_thread(lua_State *L) { thread = L; }
void observe_results(CallInfo *ci) { results_for = ci ? ci->previous : NULL; }

int observe_closing(CallInfo *ci, bool closing) {
    ci->observed.closing = closing;
    return 0;
}

static void add(uint32_t *list, unsigned *n, uint32_t index) {
    for (unsigned j = 0; j < *n; j++)
        if (list[j] == index) return;
    if (*n < OBSERVED_INDICES) list[(*n)++] = index;
}
/* An access by the word that activation ci is at, if it is one of a Lua function. */
static void mark(CallInfo *ci, const TValue *value, bool write) {
    if (!ci || !isLua(ci) || !ci->observed.open || ci->observed.closing) return;
    struct observed *o = &ci->observed;
    StkId base = (StkId)((char *)AT(thread->stack) + o->base), at = (StkId)value;
    const LClosure *cl = o->closure;
    size_t most = cl->p->maxstacksize;
    const struct lawendeb_touched *t = &o->function->seen[o->word].listed;
    if (t->reads_to_top.count || t->writes_to_top.count) most = OBSERVED_REGISTERS;
    if (base <= at && at < base + most && at < AT(thread->stack_last) + EXTRA_STACK) {
        set(write ? o->writes : o->reads, (size_t)(at - base));
        return;
    }
    if (!write && cl->p->k <= value && value < cl->p->k + cl->p->sizek) {
        add(o->constants, &o->constants_n, (uint32_t)(value - cl->p->k));
        return;
    }
    /* two upvalues may be one variable: one that is listed is meant */
    const struct lawendeb_indices *meant = write ? &t->upvalue_writes : &t->upvalues;
    int found = -1;
    for (int j = 0; j < cl->nupvalues; j++)
        if (cl->upvals[j] && AT(cl->upvals[j]->v) == value && (found < 0 || in_indices(meant, (uint32_t)j) >= 0)) found = j;
    if (found >= 0) {
        if (write) add(o->upvalue_writes, &o->upvalue_writes_n, (uint32_t)found);
        else add(o->upvalues, &o->upvalues_n, (uint32_t)found);
    }
}
void observe_return(CallInfo *ci, const void *value) { mark(ci, value, false); }
void observe_read(const void *value) {
    if (thread) mark(thread->ci, value, false);
}
void observe_write(const void *value) {
    if (thread) mark(results_for ? results_for : thread->ci, value, true);
}

/* For each opcode: words that ran, places listed for them, and places seen; a place listed with an edge counts only where
   that edge was taken, a plain write counts always. */
static void report(void) {
    static unsigned long words[128], times[128], listed[128], found[128], whole[128], edges[128];
    unsigned long places = 0, met = 0, all = 0, static_words = 0;
    for (int b = 0; b < BUCKETS; b++)
        for (struct observed_function *f = functions[b]; f; f = f->next)
            for (size_t p = 0; p < f->n; p++) {
                struct seen *s = &f->seen[p];
                unsigned o = opcode_of(f, p);
                unsigned long is = 0, was = 0;
                if (!s->times) continue;
                for (size_t i = 0; i < OBSERVED_REGISTERS; i++) {
                    if (in_ranges(&s->listed.reads, i)) { is++; was += get(s->reads, i); }
                    if (in_ranges(&s->listed.writes, i)) { is++; was += get(s->writes, i); }
                    if (s->over_edge && in_ranges(&s->listed.edge_writes, i)) { is++; was += get(s->edge_writes, i); }
                }
                for (unsigned j = 0; j < s->listed.constants.count; j++) { is++; was += s->constants[j]; }
                for (unsigned j = 0; j < s->listed.upvalues.count; j++) { is++; was += s->upvalues[j]; }
                for (unsigned j = 0; j < s->listed.upvalue_writes.count; j++) { is++; was += s->upvalue_writes[j]; }
                words[o]++;
                times[o] += s->times;
                listed[o] += is;
                found[o] += was;
                edges[o] += s->over_edge != 0;
                if (is == was) whole[o]++;
                static_words++;
                places += is;
                met += was;
                all += is == was;
            }
    const char *name = getenv("OBSERVED");
    FILE *out = name ? fopen(name, "a") : stdout;
    fprintf(out, "words %lu run %lu accesses %lu extra %lu places %lu seen %lu whole %lu\n", static_words, words_run,
            accesses, extra_accesses, places, met, all);
    for (unsigned o = 0; o < 128; o++)
        if (words[o])
            fprintf(out, "opcode %u words %lu times %lu edges %lu places %lu seen %lu whole %lu\n", o, words[o], times[o],
                    edges[o], listed[o], found[o], whole[o]);
    if (name) fclose(out);
}
