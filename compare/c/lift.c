/* The lift: refusals 1 to 6, then a record a word, in the order in which lifter.rs pushes. */
#include "twin.h"
#include "table.h"
#include <string.h>

struct tables {
    const uint8_t *tags;
    const uint64_t *payloads;
    size_t constants;
    const uint64_t *names;
    size_t names_n;
};
struct fields { uint32_t op, a, k, b, c, bx, ax; };

static inline struct fields decode(uint32_t w) {
    return (struct fields){w & 127, w >> 7 & 255, w >> 15 & 1, w >> 16 & 255, w >> 24, w >> 15, w >> 7};
}
static inline uint64_t plus(uint64_t a, uint64_t b) { return a + b > 255 ? 255 : a + b; }
static inline uint64_t minus(uint64_t a, uint64_t b) { return a > b ? a - b : 0; }

/* slots */
static inline void operand(struct twin_record *r, uint64_t kind, uint64_t x, uint64_t y, uint64_t z) {
    r->operands[r->operand_count++] = (struct twin_slot){kind, {x, y, z}};
}
static inline void reads(struct twin_record *r, uint64_t kind, uint64_t x, uint64_t y, uint64_t z) {
    r->reads[r->read_count++] = (struct twin_slot){kind, {x, y, z}};
}
static inline void writes(struct twin_record *r, uint64_t kind, uint64_t x, uint64_t y, uint64_t z) {
    r->writes[r->write_count++] = (struct twin_slot){kind, {x, y, z}};
}
static inline void effect(struct twin_record *r, uint64_t kind, uint64_t x, uint64_t y, uint64_t z) {
    r->effect = (struct twin_slot){kind, {x, y, z}};
}
enum { REGISTER = 0, CONSTANT = 1, UPVALUE = 2, PROTOTYPE = 3, INT = 4, FLOAT = 5, JUMP_TO = 6, COUNT = 7, FLAG = 8, EXTRA = 9 };
enum { RANGE = 1, TO_TOP = 2, OF_UPVALUE = 3, OF_CONSTANT = 4, OF_PROTOTYPE = 5, OF_JUMP = 6 };
enum { CLOSES = 4, SKIPS = 5, PAIRS = 7 };

static inline void reg(struct twin_record *r, uint64_t i) { operand(r, REGISTER, i, 0, 0); }
static inline void immediate(struct twin_record *r, int64_t v) { operand(r, INT, (uint64_t)v, 0, 0); }
static inline void count(struct twin_record *r, uint64_t v, bool variable) { operand(r, COUNT, v, variable, 0); }
static inline void reads_reg(struct twin_record *r, uint64_t i) { reads(r, REGISTER, i, 0, 0); }
static inline void writes_reg(struct twin_record *r, uint64_t i) { writes(r, REGISTER, i, 0, 0); }
static inline void reads_constant(struct twin_record *r, uint64_t i) { reads(r, OF_CONSTANT, i, 0, 0); }

static void constant(struct twin_record *r, const struct tables *t, uint64_t i) {
    uint64_t kind = 0, value = 0;
    if (i < t->constants) {
        value = t->payloads[i];
        switch (t->tags[i]) {
        case 1: kind = 1; value = 0; break;
        case 17: kind = 1; value = 1; break;
        case 3: kind = 2; break;
        case 19: kind = 3; break;
        case 4: kind = 4; break;
        case 20: kind = 5; break;
        default: value = 0; break;
        }
    }
    operand(r, CONSTANT, i, kind, value);
}
static inline struct twin_slot upvalue(const struct tables *t, uint64_t kind, uint64_t i) {
    uint64_t name = i < t->names_n ? t->names[i] : UINT64_MAX;
    if (name == UINT64_MAX) return (struct twin_slot){kind, {i, 0, 0}};
    return (struct twin_slot){kind, {i, 1, name}};
}
/* register or constant by k: an operand and a read */
static inline void either(struct twin_record *r, const struct tables *t, uint32_t k, uint64_t i) {
    if (k) { constant(r, t, i); reads_constant(r, i); }
    else { reg(r, i); reads_reg(r, i); }
}
static inline void jump(struct twin_record *r, int64_t offset, uint64_t to) {
    operand(r, JUMP_TO, (uint64_t)offset, to, 0);
    r->has_target = 1;
    r->target = to;
}
/* tm_name of lifter.rs */
static inline uint64_t event_by_c(uint32_t c) { return c <= 16 ? c + 6 : c == 17 ? 4 : c == 18 ? 5 : 25; }

static void body(struct twin_record *r, const uint32_t *w, size_t n, const struct tables *t, size_t pc, struct fields f) {
    switch (f.op) {
    case 0: case 49: case 50: case 51: case 52: /* MOVE, UNM, BNOT, NOT, LEN */
        reg(r, f.a); reg(r, f.b); reads_reg(r, f.b); writes_reg(r, f.a); break;
    case 1: reg(r, f.a); immediate(r, (int64_t)f.bx - 65535); writes_reg(r, f.a); break;
    case 2: {
        double v = (double)((int64_t)f.bx - 65535);
        uint64_t bits;
        memcpy(&bits, &v, 8);
        reg(r, f.a); operand(r, FLOAT, bits, 0, 0); writes_reg(r, f.a); break;
    }
    case 3: reg(r, f.a); constant(r, t, f.bx); reads_constant(r, f.bx); writes_reg(r, f.a); break;
    case 4: {
        uint64_t i = pc + 1 < n && (w[pc + 1] & 127) == 82 ? w[pc + 1] >> 7 : 0;
        reg(r, f.a); constant(r, t, i); reads_constant(r, i); writes_reg(r, f.a);
        effect(r, PAIRS, pc + 1, 0, 0); break;
    }
    case 5: case 6: case 7: /* LOADFALSE, LFALSESKIP, LOADTRUE */
        reg(r, f.a); operand(r, FLAG, f.op == 7, 0, 0); writes_reg(r, f.a);
        if (f.op == 6) effect(r, SKIPS, pc + 2, 0, 0);
        break;
    case 8: reg(r, f.a); count(r, f.b + 1, false); writes(r, RANGE, f.a, plus(f.a, f.b), 0); break;
    case 9: reg(r, f.a); r->operands[r->operand_count++] = upvalue(t, UPVALUE, f.b);
        r->reads[r->read_count++] = upvalue(t, OF_UPVALUE, f.b); writes_reg(r, f.a); break;
    case 10: reg(r, f.a); r->operands[r->operand_count++] = upvalue(t, UPVALUE, f.b);
        reads_reg(r, f.a); r->writes[r->write_count++] = upvalue(t, OF_UPVALUE, f.b); break;
    case 11: reg(r, f.a); r->operands[r->operand_count++] = upvalue(t, UPVALUE, f.b); either(r, t, f.k, f.c);
        r->reads[r->read_count++] = upvalue(t, OF_UPVALUE, f.b); writes_reg(r, f.a); break;
    case 13: reg(r, f.a); reg(r, f.b); immediate(r, f.c); reads_reg(r, f.b); writes_reg(r, f.a); break;
    case 15: r->operands[r->operand_count++] = upvalue(t, UPVALUE, f.a); either(r, t, f.k, f.b); reg(r, f.c); reads_reg(r, f.c);
        r->writes[r->write_count++] = upvalue(t, OF_UPVALUE, f.a); break;
    case 16: reg(r, f.a); reg(r, f.b); either(r, t, f.k, f.c); reads_reg(r, f.a); reads_reg(r, f.b); break;
    case 17: reg(r, f.a); immediate(r, f.b); either(r, t, f.k, f.c); reads_reg(r, f.a); break;
    case 18: reg(r, f.a); constant(r, t, f.b); either(r, t, f.k, f.c); reads_reg(r, f.a); reads_constant(r, f.b); break;
    case 19: reg(r, f.a); count(r, f.b, false); count(r, f.c, false); writes_reg(r, f.a); break;
    case 20: reg(r, f.a); reg(r, f.b); either(r, t, f.k, f.c); reads_reg(r, f.b); writes_reg(r, f.a); writes_reg(r, plus(f.a, 1)); break;
    case 21: case 32: case 33: /* ADDI, SHRI, SHLI */
        reg(r, f.a); reg(r, f.b); immediate(r, (int64_t)f.c - 127); reads_reg(r, f.b); writes_reg(r, f.a); break;
    case 14: case 22: case 23: case 24: case 25: case 26: case 27: case 28: case 29: case 30: case 31: /* GETFIELD, ADDK to BXORK */
        reg(r, f.a); reg(r, f.b); constant(r, t, f.c); reads_reg(r, f.b); reads_constant(r, f.c); writes_reg(r, f.a); break;
    case 12: case 34: case 35: case 36: case 37: case 38: case 39: case 40: case 41: case 42: case 43: case 44: case 45: /* GETTABLE, ADD to SHR */
        reg(r, f.a); reg(r, f.b); reg(r, f.c); reads_reg(r, f.b); reads_reg(r, f.c); writes_reg(r, f.a); break;
    case 46: case 47: case 48:
        if (f.op == 47) { reg(r, f.a); immediate(r, (int64_t)f.b - 127); operand(r, EXTRA, f.c, 0, 0); operand(r, FLAG, f.k, 0, 0); }
        effect(r, PAIRS, minus(pc, 1), 1, event_by_c(f.c)); break;
    case 53: reg(r, f.a); count(r, f.b, false); reads(r, RANGE, f.a, minus(plus(f.a, f.b), 1), 0); writes_reg(r, f.a); break;
    case 54: reg(r, f.a); effect(r, CLOSES, f.a, 0, 0); break;
    case 55: reg(r, f.a); break;
    case 56: {
        int64_t offset = (int64_t)f.ax - 16777215;
        uint64_t to = pc + 1 + (uint64_t)offset;
        jump(r, offset, to); reads(r, OF_JUMP, to, 0, 0); break;
    }
    case 61: case 62: case 63: case 64: case 65:
        reg(r, f.a); immediate(r, (int64_t)f.b - 127); operand(r, FLAG, f.k, 0, 0); reads_reg(r, f.a); /* fall through */
    case 57: case 58: case 59: case 60: case 66: case 67: effect(r, SKIPS, pc + 2, 0, 0); break;
    case 68:
        reg(r, f.a); count(r, minus(f.b, 1), f.b == 0); count(r, minus(f.c, 1), f.c == 0);
        reads_reg(r, f.a);
        if (f.b > 1) reads(r, RANGE, plus(f.a, 1), minus(plus(f.a, f.b), 1), 0);
        else if (f.b == 0) reads(r, TO_TOP, plus(f.a, 1), 0, 0);
        if (f.c > 1) writes(r, RANGE, f.a, minus(plus(f.a, f.c), 2), 0);
        else if (f.c == 0) writes(r, TO_TOP, f.a, 0, 0);
        break;
    case 69: reg(r, f.a); count(r, minus(f.b, 1), f.b == 0); reads_reg(r, f.a); break;
    case 70:
        reg(r, f.a); count(r, minus(f.b, 1), f.b == 0);
        if (f.b > 1) reads(r, RANGE, f.a, minus(plus(f.a, f.b), 2), 0);
        else if (f.b == 0) reads(r, TO_TOP, f.a, 0, 0);
        break;
    case 71: break;
    case 72: reg(r, f.a); reads_reg(r, f.a); break;
    case 73: case 77: reg(r, f.a); jump(r, -(int64_t)f.bx, minus(pc + 1, f.bx)); break;
    case 74: case 75: reg(r, f.a); jump(r, f.bx, pc + 1 + f.bx); break;
    case 76:
        reg(r, f.a); immediate(r, f.c); reads(r, RANGE, f.a, plus(f.a, 2), 0);
        writes(r, RANGE, plus(f.a, 3), plus(plus(f.a, 2), f.c), 0); break;
    case 78: reg(r, f.a); count(r, f.b, f.b == 0); reads_reg(r, f.a); break;
    case 79: reg(r, f.a); operand(r, PROTOTYPE, f.bx, 0, 0); reads(r, OF_PROTOTYPE, f.bx, 0, 0); writes_reg(r, f.a); break;
    case 80: reg(r, f.a); count(r, minus(f.c, 1), f.c == 0); break;
    case 81: count(r, f.a, false); break;
    case 82: operand(r, EXTRA, f.ax, 0, 0); break;
    }
}
static void lift(struct twin_record *r, const uint32_t *w, size_t n, const struct tables *t, size_t pc) {
    struct fields f = decode(w[pc]);
    const uint8_t *row = table[f.op];
    memset(r, 0, sizeof *r);
    r->pc = pc;
    r->raw_word = w[pc];
    r->opcode = f.op;
    r->confidence = f.op <= 82;
    if (row[FALLBACK] != NONE) {
        r->has_fallback = 1;
        r->fallback = row[FALLBACK] == BY_C ? event_by_c(f.c) : (uint64_t)row[FALLBACK] - 1;
    }
    if (row[COMPANION] == AFTER) { r->has_companion = 1; r->companion = pc + 1; }
    if (row[COMPANION] == BEFORE && pc > 0) { r->has_companion = 1; r->companion = pc - 1; }
    body(r, w, n, t, pc, f);
}
static inline bool past(uint64_t place, size_t bytes_n) { return (place & UINT32_MAX) + (place >> 32) > bytes_n; }

struct twin_answer twin_lift(const uint32_t *w, size_t n, const uint8_t *tags, size_t tags_n, const uint64_t *payloads,
    size_t payloads_n, const uint8_t *bytes, size_t bytes_n, const uint64_t *names, size_t names_n,
    struct twin_record *records, size_t records_n) {
    (void)bytes;
    if (n > TWIN_WORDS) return (struct twin_answer){1, 0};
    if (tags_n != payloads_n || tags_n > TWIN_CONSTANTS) return (struct twin_answer){2, 0};
    for (size_t i = 0; i < tags_n; i++)
        switch (tags[i]) {
        case 0: case 1: case 17: case 3: case 19: case 4: case 20: break;
        default: return (struct twin_answer){3, i};
        }
    for (size_t i = 0; i < tags_n; i++)
        if ((tags[i] == 4 || tags[i] == 20) && past(payloads[i], bytes_n)) return (struct twin_answer){4, i};
    if (names_n > TWIN_NAMES) return (struct twin_answer){5, 0};
    for (size_t i = 0; i < names_n; i++)
        if (names[i] != UINT64_MAX && past(names[i], bytes_n)) return (struct twin_answer){5, i};
    if (records_n < n) return (struct twin_answer){6, 0};
    struct tables t = {tags, payloads, tags_n, names, names_n};
    for (size_t pc = 0; pc < n; pc++) lift(&records[pc], w, n, &t, pc);
    return (struct twin_answer){0, 0};
}
