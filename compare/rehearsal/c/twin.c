/* The C twin of the rehearsal: the same algorithm by hand, for gcc -O3. A ready queue of four places, one loop for a turn, running
   numbers in place of a trace. Speed is compared with it, and it is one more implementation in the differential test. */
#include <stdbool.h>
#include <stddef.h>
#include <stdint.h>
#include <string.h>

#include "../../c/table.h"

struct steps { unsigned kind; size_t first, second; }; /* 0 bad, 1 none, 2 one, 3 two, the lower first */

static inline unsigned class_of(uint32_t w) { return table[w & 127][STEP]; }
static inline bool is_op(const uint32_t *w, size_t n, size_t p, unsigned o) { return p < n && (w[p] & 127) == o; }

static inline struct steps one(size_t n, size_t q) {
    if (q >= n) return (struct steps){0, 0, 0};
    return (struct steps){2, q, 0};
}

/* a is at most b */
static inline struct steps two(size_t n, size_t a, size_t b) {
    if (a >= n || b >= n) return (struct steps){0, 0, 0};
    if (a == b) return (struct steps){2, a, 0};
    return (struct steps){3, a, b};
}

static inline struct steps steps(const uint32_t *w, size_t n, size_t p) {
    static const struct steps bad = {0, 0, 0};
    if (p >= n) return bad;
    uint32_t x = w[p];
    size_t bx = x >> 15;
    switch (class_of(x)) {
    case NEXT: return one(n, p + 1);
    case STOP: return (struct steps){1, 0, 0};
    case ARITHMETIC: return p + 1 < n && class_of(w[p + 1]) == METAMETHOD ? two(n, p + 1, p + 2) : bad;
    case METAMETHOD: return p > 0 && class_of(w[p - 1]) == ARITHMETIC ? one(n, p + 1) : bad;
    case TEST: return is_op(w, n, p + 1, 56) ? two(n, p + 1, p + 2) : bad;
    case SKIP: return one(n, p + 2);
    case SETLIST: if (!(x >> 15 & 1)) return one(n, p + 1); /* fall through */
    case EXTENDED: return is_op(w, n, p + 1, 82) ? one(n, p + 2) : bad;
    case JUMP: return one(n, p + 1 + (x >> 7) - 16777215);
    case LOOP: return bx <= p + 1 ? two(n, p + 1 - bx, p + 1) : bad;
    case FORPREP: return two(n, p + 1, p + 2 + bx);
    case TFORPREP: return is_op(w, n, p + 1 + bx, 76) ? one(n, p + 1 + bx) : bad;
    case TFORCALL: return is_op(w, n, p + 1, 77) ? one(n, p + 1) : bad;
    default: return bad;
    }
}

struct answer { uint64_t number, place, waits[4]; };

/* Acceptance of one script: marks, lengths, number and place. */
static struct answer accept(const uint32_t *w, size_t n, uint8_t *marks, size_t marks_n, uint32_t *lengths, size_t lengths_n) {
    if (n > 32768) return (struct answer){1, 0, {0}};
    if (marks_n < n || lengths_n < n) return (struct answer){6, 0, {0}};
    if (n == 0) return (struct answer){7, 0, {0}};
    size_t head = 0, tail = 1, lowest = n;
    memset(marks, 0, n);
    marks[0] = 1;
    lengths[0] = 0;
    while (head < tail) {
        size_t p = lengths[head++];
        struct steps s = steps(w, n, p);
        if (s.kind == 0 && p < lowest) lowest = p;
        if (s.kind >= 2 && !marks[s.first]) { marks[s.first] = 1; lengths[tail++] = (uint32_t)s.first; }
        if (s.kind == 3 && !marks[s.second]) { marks[s.second] = 1; lengths[tail++] = (uint32_t)s.second; }
    }
    memset(lengths, 0, n * sizeof *lengths);
    if (lowest < n) return (struct answer){8, lowest, {0}};
    for (size_t p = n; p-- > 0;) {
        if (!marks[p]) continue;
        struct steps s = steps(w, n, p);
        uint32_t most = 0;
        if (s.kind >= 2 && s.first > p) most = lengths[s.first];
        if (s.kind == 3 && s.second > p && lengths[s.second] > most) most = lengths[s.second];
        lengths[p] = most + 1;
    }
    return (struct answer){0, 0, {0}};
}

struct task { size_t script, word; };
struct tally { bool turned; uint32_t ended, longest; };

enum ending { OVER, RETURNED, STARVED };
struct turn { enum ending ending; uint32_t ran; size_t word, taken; };

static inline struct turn turn(const uint32_t *w, size_t n, const uint8_t *choices, size_t choices_n, uint32_t room, size_t p, size_t taken) {
    for (uint32_t ran = 0; ran < room;) {
        struct steps s = steps(w, n, p);
        if (s.kind < 2) return (struct turn){RETURNED, ran + 1, 0, taken};
        size_t to = s.first;
        if (s.kind == 3) {
            if (choices_n <= taken) return (struct turn){STARVED, ran, 0, taken};
            if (choices[taken++]) to = s.second;
        }
        ran++;
        if (to <= p) return (struct turn){OVER, ran, to, taken};
        p = to;
    }
    return (struct turn){OVER, room, p, taken};
}

struct answer twin_rehearse(const uint32_t *w0, size_t n0, const uint32_t *w1, size_t n1, const uint32_t *w2, size_t n2,
                            const uint32_t *w3, size_t n3, size_t count, uint32_t quantum, const uint8_t *choices, size_t choices_n,
                            uint32_t limit, uint8_t *marks, size_t marks_n, uint32_t *lengths, size_t lengths_n) {
    const uint32_t *words[4] = {w0, w1, w2, w3};
    const size_t sizes[4] = {n0, n1, n2, n3};
    bool out = count < 1 || count > 4 || quantum < 1 || quantum > 1000;
    for (size_t i = 0; i < choices_n && !out; i++) out = choices[i] > 1;
    if (out) return (struct answer){23, 0, {0}};
    for (size_t i = 0; i < count; i++) {
        struct answer a = accept(words[i], sizes[i], marks, marks_n, lengths, lengths_n);
        if (a.number) return a;
    }
    struct task queue[4] = {{0, 0}, {1, 0}, {2, 0}, {3, 0}};
    struct tally tallies[4] = {{false, limit, 0}, {false, limit, 0}, {false, limit, 0}, {false, limit, 0}};
    size_t size = count, taken = 0;
    uint32_t left = limit;
    while (left) {
        struct task first = queue[0];
        struct turn t = turn(words[first.script], sizes[first.script], choices, choices_n, quantum < left ? quantum : left, first.word, taken);
        struct tally *own = &tallies[first.script];
        if (t.ran) {
            uint32_t wait = own->ended - left;
            if (own->turned && own->longest < wait) own->longest = wait;
            own->turned = true;
            own->ended = left - t.ran;
        }
        if (t.ending == STARVED) break;
        taken = t.taken;
        left -= t.ran;
        for (size_t i = 1; i < size; i++) queue[i - 1] = queue[i];
        if (t.ending == OVER) queue[size - 1] = (struct task){first.script, t.word};
        else if (--size == 0) break;
    }
    return (struct answer){0, 0, {tallies[0].longest, tallies[1].longest, tallies[2].longest, tallies[3].longest}};
}
