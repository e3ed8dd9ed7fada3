/* The successors of a word of Lua 5.4, by the table. Included by twin.c, after what it needs. */
#include "table.h"

static inline unsigned op(uint32_t w) { return w & 127; }
static inline unsigned step_class(uint32_t w) { return table[op(w)][STEP]; }
static inline unsigned class_at(const uint32_t *w, size_t n, size_t p) { return p < n ? step_class(w[p]) : INVALID; }
static inline bool is_op(const uint32_t *w, size_t n, size_t p, unsigned o) { return p < n && op(w[p]) == o; }

static inline struct twin_successors successors(const uint32_t *w, size_t n, size_t p) {
    if (p >= n) return invalid;
    uint32_t x = w[p];
    size_t bx = x >> 15;
    switch (step_class(x)) {
    case NEXT: return one(n, p + 1);
    case STOP: return (struct twin_successors){1, 0, 0};
    case ARITHMETIC: return class_at(w, n, p + 1) == METAMETHOD ? two(n, p + 1, p + 2) : invalid;
    case METAMETHOD: return p > 0 && step_class(w[p - 1]) == ARITHMETIC ? one(n, p + 1) : invalid;
    case TEST: return is_op(w, n, p + 1, 56) ? two(n, p + 1, p + 2) : invalid;
    case SKIP: return one(n, p + 2);
    case SETLIST: if (!(x >> 15 & 1)) return one(n, p + 1); /* fall through */
    case EXTENDED: return is_op(w, n, p + 1, 82) ? one(n, p + 2) : invalid;
    case JUMP: return one(n, p + 1 + (x >> 7) - 16777215);
    case LOOP: return bx <= p + 1 ? two(n, p + 1 - bx, p + 1) : invalid;
    case FORPREP: return two(n, p + 1, p + 2 + bx);
    case TFORPREP: return is_op(w, n, p + 1 + bx, 76) ? one(n, p + 1 + bx) : invalid;
    case TFORCALL: return is_op(w, n, p + 1, 77) ? one(n, p + 1) : invalid;
    default: return invalid;
    }
}
