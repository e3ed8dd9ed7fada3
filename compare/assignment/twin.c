/* Steps and lists of each word are settled once, in a table of the file's own; then the marks, then the registers. */
#include "twin.h"
#include <stdbool.h>
#include <string.h>

enum { MOST = 32768, REGISTERS = 576 }; /* the highest that is named is 255 + 3 + 255; blocks of 64 */

enum opcode {
    MOVE, LOADI, LOADF, LOADK, LOADKX, LOADFALSE, LFALSESKIP, LOADTRUE, LOADNIL, GETUPVAL, SETUPVAL, GETTABUP,
    GETTABLE, GETI, GETFIELD, SETTABUP, SETTABLE, SETI, SETFIELD, NEWTABLE, SELF, ADDI, ADDK, SUBK, MULK, MODK,
    POWK, DIVK, IDIVK, BANDK, BORK, BXORK, SHRI, SHLI, ADD, SUB, MUL, MOD, POW, DIV, IDIV, BAND, BOR, BXOR, SHL,
    SHR, MMBIN, MMBINI, MMBINK, UNM, BNOT, NOT, LEN, CONCAT, CLOSE, TBC, JMP, EQ, LT, LE, EQK, EQI, LTI, LEI, GTI,
    GEI, TEST, TESTSET, CALL, TAILCALL, RETURN, RETURN0, RETURN1, FORLOOP, FORPREP, TFORPREP, TFORCALL, TFORLOOP,
    SETLIST, CLOSURE, VARARG, VARARGPREP, EXTRAARG
};

struct range {
    uint16_t first, count;
};
struct word {
    uint16_t to[2];
    uint8_t ways; /* 3: a bad word */
    struct range reads[3], sets[2][2];
};
static struct word table[MOST];
static uint16_t queue[MOST];
static uint8_t seen[MOST];
static uint64_t unset[MOST];

static unsigned op(uint32_t w) { return w & 127; }
static struct range one(unsigned r) { return (struct range){(uint16_t)r, 1}; }
static struct range many(unsigned first, int count) {
    return (struct range){(uint16_t)first, (uint16_t)(count > 0 ? count : 0)};
}
static bool in(struct range x, unsigned r) { return r - x.first < x.count; }

static void lists(struct word *t, const uint32_t *w, size_t p) {
    uint32_t x = w[p];
    unsigned a = x >> 7 & 255, k = x >> 15 & 1, b = x >> 16 & 255, c = x >> 24;
    struct range rk = k ? many(0, 0) : one(c);
    struct range *r = t->reads, *s = t->sets[0];
    switch (op(x)) {
    case LOADI: case LOADF: case LOADK: case LOADKX: case LOADFALSE: case LFALSESKIP: case LOADTRUE: case GETUPVAL:
    case GETTABUP: case NEWTABLE: case CLOSURE:
        s[0] = one(a);
        break;
    case LOADNIL: s[0] = many(a, (int)b + 1); break;
    case MOVE: case GETI: case GETFIELD: case UNM: case BNOT: case NOT: case LEN:
        r[0] = one(b), s[0] = one(a);
        break;
    case GETTABLE: r[0] = one(b), r[1] = one(c), s[0] = one(a); break;
    case SETUPVAL: case TBC: case EQK: case EQI: case LTI: case LEI: case GTI: case GEI: case TEST: case RETURN1:
        r[0] = one(a);
        break;
    case SETTABUP: r[0] = rk; break;
    case SETTABLE: r[0] = one(a), r[1] = one(b), r[2] = rk; break;
    case SETI: case SETFIELD: r[0] = one(a), r[1] = rk; break;
    case SELF: r[0] = one(b), r[1] = rk, s[0] = many(a, 2); break;
    case ADDI: case ADDK: case SUBK: case MULK: case MODK: case POWK: case DIVK: case IDIVK: case BANDK: case BORK:
    case BXORK: case SHRI: case SHLI:
        r[0] = one(b), t->sets[1][0] = one(a);
        break;
    case ADD: case SUB: case MUL: case MOD: case POW: case DIV: case IDIV: case BAND: case BOR: case BXOR: case SHL:
    case SHR:
        r[0] = one(b), r[1] = one(c), t->sets[1][0] = one(a);
        break;
    case MMBIN: r[1] = one(b); /* fall through */
    case MMBINI: case MMBINK: r[0] = one(a), s[0] = one(w[p - 1] >> 7 & 255); break;
    case CONCAT: r[0] = many(a, (int)b), s[0] = one(a); break;
    case EQ: case LT: case LE: r[0] = one(a), r[1] = one(b); break;
    case TESTSET: r[0] = one(b), s[0] = one(a); break;
    case CALL: s[0] = many(a, (int)c - 1); /* fall through */
    case TAILCALL: r[0] = b ? many(a, (int)b) : one(a); break;
    case RETURN: r[0] = many(a, (int)b - 1); break;
    case FORLOOP: r[0] = many(a, 3), s[0] = many(a, 2), s[1] = one(a + 3); break;
    case FORPREP: r[0] = many(a, 3), s[0] = many(a, 4), t->sets[1][0] = one(a + 3); break;
    case TFORPREP: r[0] = one(a + 3); break;
    case TFORCALL: r[0] = many(a, 3), s[0] = many(a + 4, (int)c); break;
    case TFORLOOP: r[0] = one(a + 4), s[0] = one(a + 2); break;
    case SETLIST: r[0] = many(a, (int)b + 1); break;
    case VARARG: s[0] = many(a, (int)c - 1); break;
    default: break; /* CLOSE, JMP, RETURN0, VARARGPREP */
    }
}

static bool arithmetic(unsigned o) { return o >= ADDI && o <= SHR; }
static bool metamethod(unsigned o) { return o >= MMBIN && o <= MMBINK; }

static void settle(struct word *t, const uint32_t *w, size_t n, size_t p) {
    uint32_t x = w[p];
    unsigned o = op(x), next = p + 1 < n ? op(w[p + 1]) : 127;
    size_t to[2] = {p + 1, p + 1}, bx = x >> 15;
    unsigned ways = 1;
    bool good = o < EXTRAARG;
    memset(t, 0, sizeof *t);
    if (o >= TAILCALL && o <= RETURN1) ways = 0;
    else if (arithmetic(o)) ways = 2, to[1] = p + 2, good = metamethod(next);
    else if (metamethod(o)) good = p > 0 && arithmetic(op(w[p - 1]));
    else if (o >= EQ && o <= TESTSET) ways = 2, to[1] = p + 2, good = next == JMP;
    else if (o == LFALSESKIP) to[0] = p + 2;
    else if (o == LOADKX || o == NEWTABLE || (o == SETLIST && (x >> 15 & 1))) to[0] = p + 2, good = next == EXTRAARG;
    else if (o == JMP) to[0] = p + 1 + (x >> 7) - 16777215;
    else if (o == FORLOOP || o == TFORLOOP) ways = 2, to[0] = p + 1 - bx;
    else if (o == FORPREP) ways = 2, to[1] = p + 2 + bx;
    else if (o == TFORPREP) to[0] = p + 1 + bx, good = to[0] < n && op(w[to[0]]) == TFORCALL;
    else if (o == TFORCALL) good = next == TFORLOOP;
    for (unsigned i = 0; i < ways; i++)
        good = good && to[i] < n;
    t->ways = 3;
    if (!good) return;
    lists(t, w, p);
    t->to[0] = (uint16_t)to[0], t->to[1] = (uint16_t)to[1];
    /* a loop of no words: one step, listed with what the way back sets */
    t->ways = (uint8_t)(ways == 2 && to[0] == to[1] ? 1 : ways);
}

/* Settles what is reachable, and marks it; the lowest bad word, n if none. */
static size_t mark(const uint32_t *w, size_t n, uint8_t *marks) {
    size_t head = 0, tail = 1, lowest = n;
    memset(marks, 0, n);
    marks[0] = 1, queue[0] = 0;
    while (head < tail) {
        size_t p = queue[head++];
        struct word *t = &table[p];
        settle(t, w, n, p);
        if (t->ways == 3) {
            if (p < lowest) lowest = p;
            continue;
        }
        for (unsigned i = 0; i < t->ways; i++)
            if (!marks[t->to[i]]) marks[t->to[i]] = 1, queue[tail++] = t->to[i];
    }
    return lowest;
}

static struct twin_answer say(uint64_t number, uint64_t place) { return (struct twin_answer){number, place}; }

static uint64_t refused(size_t n, size_t marks_n) { return n > MOST ? 1 : marks_n < n ? 6 : n == 0 ? 7 : 0; }

struct twin_answer twin_search(const uint32_t *w, size_t n, uint8_t parameters, uint8_t *marks, size_t marks_n) {
    bool read[REGISTERS] = {0};
    uint64_t first = refused(n, marks_n);
    if (first) return say(first, 0);
    size_t lowest = mark(w, n, marks);
    if (lowest < n) return say(8, lowest);
    for (size_t p = 0; p < n; p++)
        if (marks[p])
            for (int i = 0; i < 3; i++)
                memset(read + table[p].reads[i].first, 1, table[p].reads[i].count);
    for (unsigned r = parameters; r < REGISTERS; r++) {
        if (!read[r]) continue;
        size_t head = 0, tail = 1;
        memset(seen, 0, n);
        seen[0] = 1, queue[0] = 0;
        while (head < tail) {
            size_t p = queue[head++];
            const struct word *t = &table[p];
            if (p < lowest && (in(t->reads[0], r) || in(t->reads[1], r) || in(t->reads[2], r))) lowest = p;
            for (unsigned i = 0; i < t->ways; i++)
                if (!seen[t->to[i]] && !in(t->sets[i][0], r) && !in(t->sets[i][1], r))
                    seen[t->to[i]] = 1, queue[tail++] = t->to[i];
        }
    }
    return lowest < n ? say(17, lowest) : say(0, 0);
}

/* The registers of a range among the 64 from `base`. */
static uint64_t bits(struct range x, unsigned base) {
    int first = (int)x.first - (int)base, last = first + x.count; /* last not among them */
    if (first < 0) first = 0;
    if (last > 64) last = 64;
    if (last <= first) return 0;
    return (last - first == 64 ? ~0ull : (1ull << (last - first)) - 1) << first;
}

struct twin_answer twin_blocks(const uint32_t *w, size_t n, uint8_t parameters, uint8_t *marks, size_t marks_n) {
    uint64_t first = refused(n, marks_n);
    if (first) return say(first, 0);
    size_t lowest = mark(w, n, marks);
    if (lowest < n) return say(8, lowest);
    for (unsigned base = 0; base < REGISTERS; base += 64) {
        uint64_t read = 0;
        for (size_t p = 0; p < n; p++)
            if (marks[p])
                for (int i = 0; i < 3; i++)
                    read |= bits(table[p].reads[i], base);
        read &= ~bits(many(0, parameters), base);
        if (!read) continue;
        /* a ring: a word stands in it once at most */
        size_t head = 0, waiting = 1;
        memset(seen, 0, n);
        memset(unset, 0, n * sizeof *unset);
        unset[0] = read, seen[0] = 1, queue[0] = 0;
        while (waiting) {
            size_t p = queue[head];
            const struct word *t = &table[p];
            head = (head + 1) % MOST, waiting--;
            seen[p] = 0;
            for (unsigned i = 0; i < t->ways; i++) {
                size_t q = t->to[i];
                uint64_t on = unset[p] & ~bits(t->sets[i][0], base) & ~bits(t->sets[i][1], base);
                if (on & ~unset[q]) {
                    unset[q] |= on;
                    if (!seen[q]) seen[q] = 1, queue[(head + waiting++) % MOST] = (uint16_t)q;
                }
            }
        }
        for (size_t p = 0; p < lowest; p++)
            if (unset[p])
                for (int i = 0; i < 3; i++)
                    if (unset[p] & bits(table[p].reads[i], base)) { lowest = p; break; }
    }
    return lowest < n ? say(17, lowest) : say(0, 0);
}
