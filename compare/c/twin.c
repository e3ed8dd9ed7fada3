/* Successors (by the table; -DTWIN_STEPS names another version's), breadth-first search with its queue in the lengths, backward pass, scan; distances and crossing
   edges; the meter. */
#include "twin.h"
#include <string.h>

static const struct twin_successors invalid = {0, 0, 0};
static inline struct twin_successors one(size_t n, size_t q) {
    if (q >= n) return invalid;
    return (struct twin_successors){2, q, 0};
}
/* a is at most b; an underflow has wrapped to a large number */
static inline struct twin_successors two(size_t n, size_t a, size_t b) {
    if (a >= n || b >= n) return invalid;
    if (a == b) return (struct twin_successors){2, a, 0};
    return (struct twin_successors){3, a, b};
}
#ifndef TWIN_STEPS
#define TWIN_STEPS "steps.h"
#endif
#include TWIN_STEPS

static inline bool serves(size_t p, size_t q) { return q <= p; }

struct twin_successors twin_successors(const uint32_t *w, size_t n, size_t p) { return successors(w, n, p); }

/* Marks what is reachable; answers the lowest invalid word among it, n if none. */
static size_t mark(const uint32_t *w, size_t n, uint8_t *marks, uint32_t *queue) {
    size_t head = 0, tail = 1, lowest = n;
    memset(marks, 0, n);
    marks[0] = 1;
    queue[0] = 0;
    while (head < tail) {
        size_t p = queue[head++];
        struct twin_successors s = successors(w, n, p);
        if (s.kind == 0 && p < lowest) lowest = p;
        if (s.kind >= 2 && !marks[s.first]) { marks[s.first] = 1; queue[tail++] = (uint32_t)s.first; }
        if (s.kind == 3 && !marks[s.second]) { marks[s.second] = 1; queue[tail++] = (uint32_t)s.second; }
    }
    return lowest;
}
/* Whether the weights are turned away. All are looked at, for gcc to take many at a time. */
static inline bool refuses_weights(const uint8_t *weights, size_t weights_n) {
    if (weights_n != TWIN_WEIGHTS) return true;
    uint8_t zero = 0;
    for (size_t i = 0; i < TWIN_WEIGHTS; i++) zero |= weights[i] == 0;
    return zero;
}
static size_t weights_place(const uint8_t *weights, size_t weights_n) {
    size_t i = 0;
    if (weights_n == TWIN_WEIGHTS)
        while (weights[i]) i++;
    return i;
}
static inline uint32_t on(const uint32_t *lengths, size_t p, size_t q) {
    return serves(p, q) ? 0 : lengths[q];
}
/* The lengths of what is marked, by a table of weights, over zeros; where the largest stands first. */
static inline size_t measure(const uint32_t *w, size_t n, const uint8_t *weights, const uint8_t *marks, uint32_t *lengths) {
    for (size_t p = n; p-- > 0;) {
        if (!marks[p]) continue;
        struct twin_successors s = successors(w, n, p);
        uint32_t most = 0;
        if (s.kind >= 2) most = on(lengths, p, s.first);
        if (s.kind == 3) { uint32_t other = on(lengths, p, s.second); if (other > most) most = other; }
        lengths[p] = most + weights[op(w[p])];
    }
    size_t first = 0;
    for (size_t p = 1; p < n; p++)
        if (lengths[p] > lengths[first]) first = p;
    return first;
}
struct twin_run twin_longest_run(const uint32_t *w, size_t n, const uint8_t *weights, size_t weights_n, uint8_t *marks,
    size_t marks_n, uint32_t *lengths, size_t lengths_n) {
    if (n > TWIN_WORDS) return (struct twin_run){1, 0, 0, 0};
    if (marks_n < n || lengths_n < n) return (struct twin_run){6, 0, 0, 0};
    if (refuses_weights(weights, weights_n)) return (struct twin_run){18, weights_place(weights, weights_n), 0, 0};
    if (n == 0) return (struct twin_run){7, 0, 0, 0};
    size_t lowest = mark(w, n, marks, lengths);
    memset(lengths, 0, n * sizeof *lengths);
    if (lowest < n) return (struct twin_run){8, lowest, 0, 0};
    size_t first = measure(w, n, weights, marks, lengths);
    return (struct twin_run){0, 0, lengths[first], first};
}
/* Both tables, with one search. What is not marked stays 0, and what is marked is measured anew from the end: nothing is
   cleared between the two. */
struct twin_range twin_longest_runs(const uint32_t *w, size_t n, const uint8_t *low, size_t low_n, const uint8_t *high,
    size_t high_n, uint8_t *marks, size_t marks_n, uint32_t *lengths, size_t lengths_n) {
    struct twin_range r = {0};
    if (n > TWIN_WORDS) { r.number = 1; return r; }
    if (marks_n < n || lengths_n < n) { r.number = 6; return r; }
    if (refuses_weights(low, low_n)) { r.number = 18; r.place = weights_place(low, low_n); return r; }
    if (refuses_weights(high, high_n)) { r.number = 18; r.place = weights_place(high, high_n); return r; }
    for (size_t i = 0; i < TWIN_WEIGHTS; i++)
        if (low[i] > high[i]) { r.number = 19; r.place = i; return r; }
    if (n == 0) { r.number = 7; return r; }
    size_t lowest = mark(w, n, marks, lengths);
    memset(lengths, 0, n * sizeof *lengths);
    if (lowest < n) { r.number = 8; r.place = lowest; return r; }
    r.low_first = measure(w, n, low, marks, lengths);
    r.low_longest = lengths[r.low_first];
    r.high_first = measure(w, n, high, marks, lengths);
    r.high_longest = lengths[r.high_first];
    return r;
}

/* The distance to service of every word, from the highest down. */
static void fill_distances(const uint32_t *w, size_t n, uint32_t *lengths) {
    for (size_t p = n; p-- > 0;) {
        struct twin_successors s = successors(w, n, p);
        uint32_t least = 0;
        if (s.kind >= 2 && !serves(p, s.first)) {
            least = lengths[s.first];
            if (s.kind == 3 && lengths[s.second] < least) least = lengths[s.second];
        }
        lengths[p] = least + 1;
    }
}
static struct twin_run counted_run(const uint32_t *w, size_t n, uint8_t *marks, size_t marks_n, uint32_t *lengths,
    size_t lengths_n) {
    uint8_t ones[TWIN_WEIGHTS];
    memset(ones, 1, sizeof ones);
    return twin_longest_run(w, n, ones, TWIN_WEIGHTS, marks, marks_n, lengths, lengths_n);
}
struct twin_nearest twin_distance_to_service(const uint32_t *w, size_t n, size_t word, uint8_t *marks, size_t marks_n,
    uint32_t *lengths, size_t lengths_n) {
    uint32_t fewest = 0;
    if (n <= TWIN_WORDS && marks_n >= n && lengths_n >= n) {
        fill_distances(w, n, lengths);
        if (word < n) fewest = lengths[word];
    }
    struct twin_run r = counted_run(w, n, marks, marks_n, lengths, lengths_n);
    if (r.number || word >= n || !marks[word]) return (struct twin_nearest){r.number, r.place, 0, 0};
    return (struct twin_nearest){0, 0, 1, fewest};
}
struct twin_answer twin_list_within(const uint32_t *w, size_t n, size_t d, uint8_t *marks, size_t marks_n, uint32_t *lengths,
    size_t lengths_n, uint8_t *list, size_t list_n) {
    if (n <= TWIN_WORDS && list_n < n) return (struct twin_answer){6, 0};
    struct twin_run r = counted_run(w, n, marks, marks_n, lengths, lengths_n);
    if (r.number) return (struct twin_answer){r.number, r.place};
    fill_distances(w, n, lengths);
    for (size_t p = 0; p < n; p++) list[p] = marks[p] && lengths[p] <= d;
    counted_run(w, n, marks, marks_n, lengths, lengths_n);
    return (struct twin_answer){0, 0};
}
static inline size_t over(size_t w, size_t p, size_t q) { return (p < w && w < q) || (q < w && w < p); }
struct twin_crossed twin_crossing_edges(const uint32_t *w, size_t n, size_t word, uint8_t *marks, size_t marks_n,
    uint32_t *lengths, size_t lengths_n) {
    struct twin_run r = counted_run(w, n, marks, marks_n, lengths, lengths_n);
    if (r.number) return (struct twin_crossed){r.number, r.place, 0};
    size_t count = 0;
    for (size_t p = 0; p < n; p++) {
        if (!marks[p]) continue;
        struct twin_successors s = successors(w, n, p);
        if (s.kind >= 2) count += over(word, p, s.first);
        if (s.kind == 3) count += over(word, p, s.second);
    }
    return (struct twin_crossed){0, 0, count};
}

static inline struct twin_answer answer(uint64_t number) { return (struct twin_answer){number, 0}; }

void twin_begin(struct twin_meter *m) { m->begun = 0; m->last = 0; m->since = 0; }

void twin_reset(struct twin_meter *m) { m->highest = m->since; }

static inline void show(struct twin_meter *m, uint32_t since) {
    m->since = since;
    if (since > m->highest) m->highest = since;
}

struct twin_answer twin_feed(const uint32_t *w, size_t n, const uint8_t *weights, size_t weights_n, struct twin_meter *m,
    size_t q) {
    if (n > TWIN_WORDS) return answer(1);
    if (refuses_weights(weights, weights_n)) return (struct twin_answer){18, weights_place(weights, weights_n)};
    if (m->highest < m->since) return answer(11);
    if (!m->begun) {
        if (m->last || m->since) return answer(11);
        if (q != 0 || n == 0) return answer(10);
        m->begun = 1;
        show(m, weights[op(w[0])]);
        return answer(0);
    }
    size_t p = m->last;
    if (p >= n || m->since == 0 || m->since > TWIN_HEAVIEST * (p + 1)) return answer(11);
    struct twin_successors s = successors(w, n, p);
    if (!(s.kind >= 2 && s.first == q) && !(s.kind == 3 && s.second == q)) return answer(10);
    if (serves(p, q)) {
        show(m, weights[op(w[q])]);
        if (m->services < UINT32_MAX) m->services++;
    } else
        show(m, m->since + weights[op(w[q])]);
    m->last = (uint32_t)q;
    return answer(0);
}

struct twin_answer twin_begin_four(struct twin_meters *ms, uint32_t script) {
    if (script > 3) return answer(20);
    twin_begin(&ms->of[script]);
    return answer(0);
}

struct twin_answer twin_reset_four(struct twin_meters *ms, uint32_t script) {
    if (script > 3) return answer(20);
    twin_reset(&ms->of[script]);
    return answer(0);
}

/* Feeds a copy, and stores it once nothing refuses, as the proved code does. */
struct twin_answer twin_feed_four(const uint32_t *w, size_t n, const uint8_t *weights, size_t weights_n,
    struct twin_meters *ms, uint32_t script, uint32_t budget, size_t q) {
    if (script > 3) return answer(20);
    if (budget == 0 || budget > TWIN_BUDGET) return answer(21);
    struct twin_meter m = ms->of[script];
    struct twin_answer fed = twin_feed(w, n, weights, weights_n, &m, q);
    if (fed.number) return fed;
    uint64_t sum = m.since;
    for (uint32_t i = 0; i < 4; i++)
        if (i != script) sum += ms->of[i].since;
    if (sum > budget) return answer(22);
    ms->of[script] = m;
    return fed;
}

/* Feeds the meter where it lies, and puts it back if the sum is above the budget. */
struct twin_answer twin_feed_four_in_place(const uint32_t *w, size_t n, const uint8_t *weights, size_t weights_n,
    struct twin_meters *ms, uint32_t script, uint32_t budget, size_t q) {
    if (script > 3) return answer(20);
    if (budget == 0 || budget > TWIN_BUDGET) return answer(21);
    struct twin_meter *m = &ms->of[script], before = *m;
    struct twin_answer fed = twin_feed(w, n, weights, weights_n, m, q);
    if (fed.number) return fed;
    uint64_t sum = 0;
    for (uint32_t i = 0; i < 4; i++) sum += ms->of[i].since;
    if (sum > budget) {
        *m = before;
        return answer(22);
    }
    return fed;
}
