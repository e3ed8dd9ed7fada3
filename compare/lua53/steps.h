/* The successors of a word of Lua 5.3, for the passes of c/twin.c. */
enum kind { NEXT, STOP, SKIP, COMPARE, TEST, EXTENDED, BATCH, JUMP, LOOP, CALLING, INVALID };
enum {
    OP_LOADKX = 2, OP_LOADBOOL = 3, OP_JMP = 30, OP_EQ = 31, OP_LE = 33, OP_TEST = 34, OP_TESTSET = 35, OP_RETURN = 38,
    OP_FORLOOP = 39, OP_FORPREP = 40, OP_TFORCALL = 41, OP_TFORLOOP = 42, OP_SETLIST = 43, OP_EXTRAARG = 46
};
static const uint8_t kinds[64] = {
    [OP_LOADKX] = EXTENDED, [OP_LOADBOOL] = SKIP, [OP_JMP] = JUMP, [OP_EQ ... OP_LE] = COMPARE,
    [OP_TEST ... OP_TESTSET] = TEST, [OP_RETURN] = STOP, [OP_FORLOOP] = LOOP, [OP_FORPREP] = JUMP,
    [OP_TFORCALL] = CALLING, [OP_TFORLOOP] = LOOP, [OP_SETLIST] = BATCH, [OP_EXTRAARG ... 63] = INVALID,
};

static inline unsigned op(uint32_t w) { return w & 63; }
static inline bool is_op(const uint32_t *w, size_t n, size_t p, unsigned o) { return p < n && op(w[p]) == o; }

static inline struct twin_successors successors(const uint32_t *w, size_t n, size_t p) {
    if (p >= n) return invalid;
    uint32_t x = w[p], a = x >> 6 & 255, c = x >> 14 & 511;
    size_t to = p + 1 + (x >> 14) - 131071;
    switch (kinds[op(x)]) {
    case NEXT: return one(n, p + 1);
    case STOP: return (struct twin_successors){1, 0, 0};
    case SKIP: return one(n, p + 1 + (c != 0));
    case COMPARE: if (a > 1) return is_op(w, n, p + 1, OP_JMP) ? one(n, p + 2) : invalid; /* fall through */
    case TEST: return is_op(w, n, p + 1, OP_JMP) ? two(n, p + 1, p + 2) : invalid;
    case BATCH: if (c) return one(n, p + 1); /* fall through */
    case EXTENDED: return is_op(w, n, p + 1, OP_EXTRAARG) ? one(n, p + 2) : invalid;
    case JUMP: return one(n, to);
    case LOOP: return to < p + 1 ? two(n, to, p + 1) : two(n, p + 1, to);
    case CALLING: return is_op(w, n, p + 1, OP_TFORLOOP) ? one(n, p + 1) : invalid;
    default: return invalid;
    }
}
