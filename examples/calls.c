/* Every function of include/lawendeb.h, called as C and as C++. The cases are those of the test
   programs: each line of crates/NAME_cases/stdin is asked here, too, and what is printed is held to
   the stdout that is stored beside it. Here stands what C alone can show, guards round all that is
   lent, structs, the header's names and null, and what those files have no question for. It is run
   in the repository's root: a line and status 1 if an answer, or anything lent, is not as it should
   be. */
#include <stdio.h>
#include <stdlib.h>
#include <string.h>

#include "lawendeb.h"

enum {
    N = LAWENDEB_RECORD_NUMBERS,
    W = LAWENDEB_WEIGHTS,
    MANY = LAWENDEB_MOST_WORDS + 1,
    ROOM = 12
};

static int checks, wrong;

static void check(int holds, int line, const char *text) {
    checks++;
    if (!holds) {
        wrong++;
        printf("calls.c:%d: %s\n", line, text);
    }
}
#define CHECK(holds) check(holds, __LINE__, #holds)

/* The functions that are there for both versions. */
struct version {
    struct lawendeb_steps (*successors)(const uint32_t *, size_t, size_t);
    struct lawendeb_touched (*touches)(const uint32_t *, size_t, size_t);
    struct lawendeb_run (*run)(const uint32_t *, size_t, const uint8_t *, size_t, uint8_t *, size_t,
                               uint32_t *, size_t);
    struct lawendeb_run_range (*runs)(const uint32_t *, size_t, const uint8_t *, size_t,
                                      const uint8_t *, size_t, uint8_t *, size_t, uint32_t *,
                                      size_t);
    struct lawendeb_path (*path)(const uint32_t *, size_t, const uint8_t *, size_t, uint8_t *,
                                 size_t, uint32_t *, size_t, uint32_t *, size_t);
    struct lawendeb_answer (*feed)(const uint32_t *, size_t, const uint8_t *, size_t,
                                   struct lawendeb_meter *, size_t);
    struct lawendeb_answer (*feed_four)(const uint32_t *, size_t, const uint8_t *, size_t,
                                        struct lawendeb_meters *, uint32_t, uint32_t, size_t);
    struct lawendeb_nearest (*nearest)(const uint32_t *, size_t, size_t, uint8_t *, size_t,
                                       uint32_t *, size_t);
    struct lawendeb_answer (*within)(const uint32_t *, size_t, size_t, uint8_t *, size_t,
                                     uint32_t *, size_t, uint8_t *, size_t);
    struct lawendeb_crossed (*crossed)(const uint32_t *, size_t, size_t, uint8_t *, size_t,
                                       uint32_t *, size_t);
};

static const struct version lua54 = {lawendeb_successors,   lawendeb_touches,
                                     lawendeb_longest_run,  lawendeb_longest_runs,
                                     lawendeb_longest_path, lawendeb_feed,
                                     lawendeb_feed_four,    lawendeb_distance_to_service,
                                     lawendeb_list_within,  lawendeb_crossing_edges};
static const struct version lua53 = {lawendeb_successors_53,   lawendeb_touches_53,
                                     lawendeb_longest_run_53,  lawendeb_longest_runs_53,
                                     lawendeb_longest_path_53, lawendeb_feed_53,
                                     lawendeb_feed_four_53,    lawendeb_distance_to_service_53,
                                     lawendeb_list_within_53,  lawendeb_crossing_edges_53};

/* ---- a question, read as crate `vectors` reads it: parts, and lists that are lent between guards
 */

enum { PAGE = 65536, PARTS = 12, LISTS = 24, GUARD = 64, LENT = 165 };

static char questions[PAGE + 1], stored[PAGE + 1], said[PAGE];
static size_t said_n;
static const char *parts[PARTS];
static const struct version *v;

/* What is lent, `bytes` of it behind a guard; the part of a list that nobody writes, else null. */
static struct {
    unsigned char *at;
    size_t bytes, size;
    const char *kept;
} lists[LISTS];
static size_t lists_n;

/* Lends, everything LENT. */
static void *lend(size_t n, size_t size, const char *kept) {
    unsigned char *at = (unsigned char *)malloc(n * size + 2 * GUARD);
    if (at == NULL || lists_n == LISTS) {
        puts("calls: no memory");
        exit(2);
    }
    memset(at, LENT, n * size + 2 * GUARD);
    lists[lists_n].at = at, lists[lists_n].bytes = n * size;
    lists[lists_n].size = size, lists[lists_n++].kept = kept;
    return at + GUARD;
}

/* Puts a list's numbers, each of so many bytes, and counts them; none is put to null. */
static size_t put(void *to, size_t size, const char *list) {
    size_t n = 0;
    while (*list != 0) {
        char *end;
        uint64_t times = 1, x;
        if (*list < '0' || *list > '9') {
            list++;
            continue;
        }
        x = strtoull(list, &end, 10);
        if (*end == '*')
            times = x, x = strtoull(end + 1, &end, 10);
        for (list = end; times > 0; times--, n++) {
            if (to != NULL && size == 1)
                ((uint8_t *)to)[n] = (uint8_t)x;
            if (to != NULL && size == 4)
                ((uint32_t *)to)[n] = (uint32_t)x;
            if (to != NULL && size == 8)
                ((uint64_t *)to)[n] = x;
        }
    }
    return n;
}

static int is_lent(const unsigned char *at, size_t n) {
    for (; n > 0; n--)
        if (*at++ != LENT)
            return 0;
    return 1;
}

/* Takes back: whether the guards stand, and each list that nobody writes is as it was. */
static int taken_back(void) {
    int holds = 1;
    while (lists_n > 0) {
        const size_t i = --lists_n, bytes = lists[i].bytes;
        unsigned char *at = lists[i].at;
        holds &= is_lent(at, GUARD) && is_lent(at + GUARD + bytes, GUARD);
        if (lists[i].kept != NULL) {
            void *again = malloc(bytes + 1);
            if (again != NULL)
                put(again, lists[i].size, lists[i].kept);
            holds &= again != NULL && memcmp(again, at + GUARD, bytes) == 0;
            free(again);
        }
        free(at);
    }
    return holds;
}

struct bytes {
    uint8_t *at;
    size_t n;
};
struct words {
    uint32_t *at;
    size_t n;
};
struct numbers {
    uint64_t *at;
    size_t n;
};
#define THESE(list) (list).at, (list).n

/* Part k of the line as a list, only read or written; and as a number. */
enum { READ, WRITTEN };

static void *list(int k, size_t size, int how, size_t *n) {
    void *at;
    *n = put(NULL, size, parts[k]);
    at = lend(*n, size, how == READ ? parts[k] : NULL);
    put(at, size, parts[k]);
    return at;
}
static struct bytes bytes_of(int k, int how) {
    struct bytes l;
    l.at = (uint8_t *)list(k, 1, how, &l.n);
    return l;
}
static struct words words_of(int k, int how) {
    struct words l;
    l.at = (uint32_t *)list(k, 4, how, &l.n);
    return l;
}
static struct numbers numbers_of(int k, int how) {
    struct numbers l;
    l.at = (uint64_t *)list(k, 8, how, &l.n);
    return l;
}
static uint64_t number(int k) {
    return strtoull(parts[k], NULL, 10);
}
static uint32_t small(int k) {
    return (uint32_t)number(k);
}

/* ---- what is printed, as the test programs print it */

static void say(const char *text) {
    const size_t n = strlen(text);
    if (said_n + n < PAGE)
        memcpy(said + said_n, text, n + 1), said_n += n;
}
static void say_number(uint64_t x) {
    char text[24];
    snprintf(text, sizeof text, " %llu", (unsigned long long)x);
    say(text);
}
static void say_two(uint64_t x, uint64_t y) {
    say_number(x), say_number(y);
}
static void refused(uint64_t k, uint64_t place) {
    say(" refused"), say_two(k, place);
}
static void accepted(struct lawendeb_answer a) {
    if (a.number != 0)
        refused(a.number, a.place);
    else
        say(" accepted");
    CHECK(a.number != 0 || a.place == 0);
}

/* Of more than 128 elements only the first and the last five. */
static int is_shown(size_t i, size_t n) {
    return n <= 128 || i == 0 || n - i <= 5;
}
static void say_bytes(const char *label, struct bytes l) {
    size_t i;
    say(label);
    for (i = 0; i < l.n; i++)
        if (is_shown(i, l.n))
            say_number(l.at[i]);
}
static void say_words(const char *label, struct words l) {
    size_t i;
    say(label);
    for (i = 0; i < l.n; i++)
        if (is_shown(i, l.n))
            say_number(l.at[i]);
}
static void say_numbers(const char *label, struct numbers l) {
    size_t i;
    say(label);
    for (i = 0; i < l.n; i++)
        say_number(l.at[i]);
}
static void slices(struct bytes marks, struct words lengths) {
    say_bytes(" marks", marks), say_words(" lengths", lengths);
}

/* ---- steps and runs */

static void step(void) {
    struct words w = words_of(2, READ);
    struct lawendeb_steps s = v->successors(THESE(w), number(3));
    if (s.kind == LAWENDEB_KIND_INVALID)
        say(" bad");
    if (s.kind == LAWENDEB_KIND_STOP)
        say(" none");
    if (s.kind == LAWENDEB_KIND_ONE)
        say_number(s.first);
    if (s.kind == LAWENDEB_KIND_TWO)
        say_two(s.first, s.second);
    CHECK((s.kind >= LAWENDEB_KIND_ONE || s.first == 0) &&
          (s.kind == LAWENDEB_KIND_TWO || s.second == 0));
}

/* Both slices of one list each, and of the same list again. */
static int same_slices(struct bytes marks, struct words lengths, struct bytes m, struct words l) {
    return memcmp(marks.at, m.at, m.n) == 0 && memcmp(lengths.at, l.at, 4 * l.n) == 0;
}

/* A run; by its weights as both tables, too. */
static void run(void) {
    struct words w = words_of(2, READ), lengths = words_of(5, WRITTEN), l = words_of(5, WRITTEN);
    struct bytes weights = bytes_of(3, READ), marks = bytes_of(4, WRITTEN),
                 m = bytes_of(4, WRITTEN);
    struct lawendeb_run r = v->run(THESE(w), THESE(weights), THESE(marks), THESE(lengths));
    struct lawendeb_run_range both =
        v->runs(THESE(w), THESE(weights), THESE(weights), THESE(m), THESE(l));
    if (r.number != 0)
        refused(r.number, r.place);
    else
        say(" accepted"), say_two(r.longest, r.first);
    slices(marks, lengths);
    CHECK(r.number == 0 ? r.place == 0 : r.longest == 0 && r.first == 0);
    CHECK(both.number == r.number && both.place == r.place && both.low_longest == r.longest &&
          both.low_first == r.first && both.high_longest == r.longest &&
          both.high_first == r.first && same_slices(marks, lengths, m, l));
}

static void runs(void) {
    struct words w = words_of(2, READ), lengths = words_of(6, WRITTEN);
    struct bytes low = bytes_of(3, READ), high = bytes_of(4, READ), marks = bytes_of(5, WRITTEN);
    struct lawendeb_run_range r =
        v->runs(THESE(w), THESE(low), THESE(high), THESE(marks), THESE(lengths));
    if (r.number != 0) {
        refused(r.number, r.place);
        CHECK(!(r.low_longest | r.low_first | r.high_longest | r.high_first));
    } else {
        say(" accepted");
        say_two(r.low_longest, r.low_first), say_two(r.high_longest, r.high_first);
        CHECK(r.place == 0);
    }
    slices(marks, lengths);
}

/* A path; unless it is too short its run is that of the same slices. */
static void path(void) {
    struct words w = words_of(2, READ), lengths = words_of(5, WRITTEN), l = words_of(5, WRITTEN);
    struct bytes weights = bytes_of(3, READ), marks = bytes_of(4, WRITTEN),
                 m = bytes_of(4, WRITTEN);
    struct words p = words_of(6, WRITTEN);
    struct lawendeb_path r =
        v->path(THESE(w), THESE(weights), THESE(marks), THESE(lengths), THESE(p));
    if (r.number != 0)
        refused(r.number, r.place);
    else
        say(" accepted"), say_two(r.longest, r.first), say_number(r.count);
    say_words(" path", p);
    CHECK(r.number == 0 ? r.place == 0 : !(r.longest | r.first | r.count));
    if (r.number != LAWENDEB_SHORT_SLICE) {
        struct lawendeb_run a = v->run(THESE(w), THESE(weights), THESE(m), THESE(l));
        CHECK(a.number == r.number && a.place == r.place && a.longest == r.longest &&
              a.first == r.first);
    }
    CHECK(same_slices(marks, lengths, m, l));
}

static void path_53(void) {
    v = &lua53;
    path();
}

/* ---- nearest service and crossing steps; of a refusal the cases of 5.3 print no number */

static void turned_away(uint64_t k, uint64_t place) {
    if (v == &lua53)
        say(" refused");
    else
        refused(k, place);
}

static void nearest(struct words w, uint64_t at, struct bytes marks, struct words lengths) {
    struct lawendeb_nearest a = v->nearest(THESE(w), at, THESE(marks), THESE(lengths));
    if (a.number != 0)
        turned_away(a.number, a.place);
    else if (a.found == 1)
        say_number(a.fewest);
    else
        say(" -");
    CHECK((a.number != 0 || a.place == 0) && a.found <= (a.number == 0) &&
          (a.found == 1 || a.fewest == 0));
}

static void crossed(struct words w, uint64_t at, struct bytes marks, struct words lengths) {
    struct lawendeb_crossed a = v->crossed(THESE(w), at, THESE(marks), THESE(lengths));
    if (a.number != 0)
        turned_away(a.number, a.place);
    else
        say_number(a.count);
    CHECK(a.number == 0 ? a.place == 0 : a.count == 0);
}

static void listed(struct words w, uint64_t d, struct bytes marks, struct words lengths,
                   struct bytes l) {
    struct lawendeb_answer a = v->within(THESE(w), d, THESE(marks), THESE(lengths), THESE(l));
    if (v == &lua53)
        say_number(a.number), say(":");
    else if (a.number != 0)
        refused(a.number, a.place);
    else
        say(" listed");
    say_bytes("", l), slices(marks, lengths);
    CHECK(a.number != 0 || a.place == 0);
}

static void distances(void) {
    struct words w = words_of(2, READ), lengths = words_of(5, WRITTEN);
    struct numbers at = numbers_of(3, READ);
    struct bytes marks = bytes_of(4, WRITTEN);
    size_t i;
    for (i = 0; i < at.n; i++)
        nearest(w, at.at[i], marks, lengths);
    if (v == &lua54)
        slices(marks, lengths);
}

static void crossings(void) {
    struct words w = words_of(2, READ), lengths = words_of(5, WRITTEN);
    struct numbers at = numbers_of(3, READ);
    struct bytes marks = bytes_of(4, WRITTEN);
    size_t i;
    for (i = 0; i < at.n; i++)
        crossed(w, at.at[i], marks, lengths);
    if (v == &lua54)
        slices(marks, lengths);
}

static void within(void) {
    struct words w = words_of(2, READ), lengths = words_of(5, WRITTEN);
    struct bytes marks = bytes_of(4, WRITTEN), l = bytes_of(6, WRITTEN);
    listed(w, number(3), marks, lengths, l);
}

static void all(void) {
    struct words w = words_of(2, READ), lengths = words_of(7, WRITTEN);
    struct bytes marks = bytes_of(6, WRITTEN), l = bytes_of(8, WRITTEN);
    nearest(w, number(3), marks, lengths);
    crossed(w, number(4), marks, lengths);
    listed(w, number(5), marks, lengths, l);
}

/* ---- meters, one and four; each list of numbers is a struct's */

static struct lawendeb_meter *meter(int k) {
    struct words l = words_of(k, WRITTEN);
    CHECK(l.n == 5);
    return (struct lawendeb_meter *)(void *)l.at;
}
static struct lawendeb_meters *meters(int k) {
    struct words l = words_of(k, WRITTEN);
    CHECK(l.n == 20);
    return (struct lawendeb_meters *)(void *)l.at;
}

static void say_meter(const struct lawendeb_meter *m) {
    say(";"), say_two(m->begun, m->last), say_two(m->count, m->services), say_number(m->highest);
}
static void say_four(const struct lawendeb_meters *ms) {
    int i;
    for (i = LAWENDEB_AXIS; i <= LAWENDEB_GUIDER; i++)
        say_meter(&ms->of[i]);
}

/* An answer, and a place if there is one. */
static void say_answer(struct lawendeb_answer a) {
    say_number(a.number);
    if (a.place != 0)
        say(" at"), say_number(a.place);
}

/* A feed; and of this meter as one of four, within a budget that it can't be above. */
static void feed(void) {
    struct words w = words_of(2, READ);
    struct bytes weights = bytes_of(3, READ);
    struct lawendeb_meter *m = meter(4);
    struct lawendeb_meters ms, others;
    struct lawendeb_answer a, b;
    memset(&others, 0, sizeof others);
    others.of[LAWENDEB_DOME] = *m, ms = others;
    a = v->feed(THESE(w), THESE(weights), m, number(5));
    b = v->feed_four(THESE(w), THESE(weights), &ms, LAWENDEB_DOME, LAWENDEB_MOST_BUDGET, number(5));
    others.of[LAWENDEB_DOME] = *m;
    CHECK(a.number == b.number && a.place == b.place && memcmp(&ms, &others, sizeof ms) == 0);
    if (v == &lua53)
        accepted(a);
    else
        say_answer(a);
    say_meter(m);
}

/* Words 0 to the last, with the last answer that was a refusal. */
static void straight(void) {
    struct words w = words_of(2, READ);
    struct bytes weights = bytes_of(3, READ);
    struct lawendeb_meter *m = meter(4);
    struct lawendeb_answer a = {0, 0};
    size_t q;
    for (q = 0; q < w.n; q++) {
        struct lawendeb_answer b = v->feed(THESE(w), THESE(weights), m, q);
        if (b.number != 0)
            a = b;
    }
    say_answer(a), say_meter(m);
}

static void begin(void) {
    struct lawendeb_meter *m = meter(2);
    lawendeb_begin(m);
    say_meter(m);
}
static void reset(void) {
    struct lawendeb_meter *m = meter(2);
    lawendeb_reset(m);
    say_meter(m);
}

static void feed_four(void) {
    struct words w = words_of(2, READ);
    struct bytes weights = bytes_of(3, READ);
    struct lawendeb_meters *ms = meters(4);
    say_answer(v->feed_four(THESE(w), THESE(weights), ms, small(5), small(6), number(7)));
    say_four(ms);
}
static void begin_four(void) {
    struct lawendeb_meters *ms = meters(2);
    say_answer(lawendeb_begin_four(ms, small(3)));
    say_four(ms);
}
static void reset_four(void) {
    struct lawendeb_meters *ms = meters(2);
    say_answer(lawendeb_reset_four(ms, small(3)));
    say_four(ms);
}

/* ---- what a word touches; places past a count hold 0 */

static void say_ranges(const char *label, struct lawendeb_ranges r) {
    int i, rest = 0;
    for (i = 0; i < 3; i++)
        if (i < r.count) {
            say(i == 0 ? label : "");
            say_number(r.items[i].first), say(" to"), say_number(r.items[i].last);
        } else {
            rest |= r.items[i].first | r.items[i].last;
        }
    CHECK(r.count <= 3 && rest == 0);
}
static void say_top(const char *label, struct lawendeb_top t) {
    if (t.count > 0)
        say(label), say_number(t.first), say(" up to the top");
    CHECK(t.count == 1 || (t.count | t.first) == 0);
}
static void say_indices(const char *label, struct lawendeb_indices r) {
    uint32_t i, rest = 0;
    for (i = 0; i < 3; i++)
        if (i < r.count)
            say(i == 0 ? label : ""), say_number(r.items[i]);
        else
            rest |= r.items[i];
    CHECK(r.count <= 3 && rest == 0);
}

static void touches(void) {
    struct words w = words_of(2, READ);
    struct lawendeb_touched t = v->touches(THESE(w), number(3));
    say(":");
    say_ranges(" reads", t.reads), say_top(" reads from", t.reads_to_top);
    say_indices(" constants", t.constants), say_indices(" upvalues", t.upvalues);
    say_ranges(" writes", t.writes), say_top(" writes from", t.writes_to_top);
    say_indices(" upvalue writes", t.upvalue_writes), say_ranges(" writes", t.edge_writes);
    if (t.edge_writes.count > 0)
        say(" on the way to"), say_number(t.edge);
    else
        CHECK(t.edge == 0);
}

static void touches_53(void) {
    v = &lua53;
    touches();
}

/* ---- registers set before use, and rehearsals */

static void assignment(void) {
    struct words w = words_of(2, READ);
    struct bytes marks = bytes_of(4, WRITTEN);
    accepted(lawendeb_definite_assignment(THESE(w), (uint8_t)number(3), THESE(marks)));
    say_bytes(" marks", marks);
}

/* By seventeen parameters, and by a struct, which must answer and leave the same. */
static void rehearsal(void) {
    struct words w[LAWENDEB_MOST_SCRIPTS], lengths = words_of(11, WRITTEN),
                                           l = words_of(11, WRITTEN);
    struct bytes choices = bytes_of(8, READ), marks = bytes_of(10, WRITTEN),
                 m = bytes_of(10, WRITTEN);
    struct lawendeb_rotation r;
    struct lawendeb_rehearsal a, b;
    int i;
    for (i = 0; i < LAWENDEB_MOST_SCRIPTS; i++) {
        w[i] = words_of(2 + i, READ);
        r.scripts[i].at = w[i].at, r.scripts[i].n = w[i].n;
    }
    r.count = number(6), r.q = small(7), r.limit = small(9);
    r.choices = choices.at, r.choices_n = choices.n;
    r.marks = m.at, r.marks_n = m.n, r.lengths = l.at, r.lengths_n = l.n;
    a = lawendeb_rehearse(THESE(w[0]), THESE(w[1]), THESE(w[2]), THESE(w[3]), r.count, r.q,
                          THESE(choices), r.limit, THESE(marks), THESE(lengths));
    b = lawendeb_rehearse_rotation(&r);
    CHECK(memcmp(&a, &b, sizeof a) == 0 && same_slices(marks, lengths, m, l));
    if (a.number != 0) {
        say(":"), refused(a.number, a.place);
        CHECK(!(a.waits[0] | a.waits[1] | a.waits[2] | a.waits[3]));
    } else {
        say(": waits"), say_two(a.waits[0], a.waits[1]), say_two(a.waits[2], a.waits[3]);
        CHECK(a.place == 0);
    }
    slices(marks, lengths);
}

/* ---- compiled scripts */

static void say_counts(struct lawendeb_counts c) {
    say_two(c.number, c.place), say_number(c.words), say_two(c.constants, c.names);
}

static void count(void) {
    struct bytes chunk = bytes_of(2, READ);
    say_counts(lawendeb_chunk_count(THESE(chunk), number(3)));
}

/* By eleven parameters, and by a struct, which must answer and fill the same. */
static void fill(void) {
    struct bytes chunk = bytes_of(2, READ), tags = bytes_of(5, WRITTEN), t = bytes_of(5, WRITTEN);
    struct words w = words_of(4, WRITTEN), x = words_of(4, WRITTEN);
    struct numbers payloads = numbers_of(6, WRITTEN), p = numbers_of(6, WRITTEN);
    struct numbers names = numbers_of(7, WRITTEN), o = numbers_of(7, WRITTEN);
    struct lawendeb_room r;
    struct lawendeb_counts a, b;
    r.words = x.at, r.words_n = x.n, r.tags = t.at, r.tags_n = t.n;
    r.payloads = p.at, r.payloads_n = p.n, r.names = o.at, r.names_n = o.n;
    a = lawendeb_chunk_fill(THESE(chunk), number(3), THESE(w), THESE(tags), THESE(payloads),
                            THESE(names));
    b = lawendeb_chunk_fill_room(THESE(chunk), number(3), &r);
    CHECK(memcmp(&a, &b, sizeof a) == 0 && same_slices(tags, w, t, x) &&
          memcmp(payloads.at, p.at, 8 * p.n) == 0 && memcmp(names.at, o.at, 8 * o.n) == 0);
    say_counts(a), say_words("\n  words", w), say_bytes("\n  tags", tags);
    say_numbers("\n  payloads", payloads), say_numbers("\n  names", names);
}

/* The numbers, then the name's bytes. */
static void name(void) {
    struct bytes chunk = bytes_of(2, READ), ours = bytes_of(4, READ);
    struct numbers own = numbers_of(3, READ), other = numbers_of(5, READ);
    struct lawendeb_name s =
        lawendeb_upvalue_name(THESE(chunk), THESE(own), THESE(ours), THESE(other), number(6));
    const struct bytes in = s.in_chunk == 1 ? chunk : ours;
    char text[2] = {0, 0};
    uint64_t i;
    say_two(s.number, s.place), say_number(s.in_chunk), say_two(s.start, s.size), say(" '");
    for (i = 0; i < s.size && s.start + i < in.n; i++)
        text[0] = (char)in.at[s.start + i], say(text);
    say("'");
}

static void functions(void) {
    struct bytes chunk = bytes_of(2, READ);
    struct numbers places = numbers_of(3, WRITTEN), parents = numbers_of(4, WRITTEN);
    struct lawendeb_listed a = lawendeb_chunk_index(THESE(chunk), THESE(places), THESE(parents));
    struct lawendeb_listed b = lawendeb_chunk_functions(THESE(chunk));
    say_two(a.number, a.place), say_number(a.functions);
    say_numbers(" places", places), say_numbers(" parents", parents);
    if (a.number == LAWENDEB_SHORT_SLICE)
        CHECK(b.number == 0 && (places.n < b.functions || parents.n < b.functions));
    else
        CHECK(memcmp(&a, &b, sizeof a) == 0);
}

static void say_function(struct lawendeb_counts c, struct words w, struct lawendeb_counts d,
                         struct words lines, struct lawendeb_head h) {
    say_two(c.number, c.place), say_number(c.words), say_words(" words", w);
    say_two(d.number, d.place), say_number(d.words), say_words(" lines", lines);
    say(" head"), say_two(h.number, h.source), say_two(h.linedefined, h.lastlinedefined);
    say_two(h.numparams, h.is_vararg), say_number(h.maxstacksize);
    CHECK(h.place == 0 && (c.number != d.number || memcmp(&c, &d, sizeof c) == 0));
}

/* Words by number are those that are filled, with room enough for all else. */
static void by_number(void) {
    struct bytes chunk = bytes_of(2, READ);
    struct words w = words_of(4, WRITTEN), lines = words_of(5, WRITTEN);
    uint8_t *tags = (uint8_t *)lend(chunk.n, 1, NULL);
    uint64_t *payloads = (uint64_t *)lend(chunk.n, 8, NULL);
    uint64_t *names = (uint64_t *)lend(chunk.n, 8, NULL);
    say_function(lawendeb_chunk_fill(THESE(chunk), number(3), THESE(w), tags, chunk.n, payloads,
                                     chunk.n, names, chunk.n),
                 w, lawendeb_chunk_lines(THESE(chunk), number(3), THESE(lines)), lines,
                 lawendeb_chunk_head(THESE(chunk), number(3)));
}

static void by_place(void) {
    struct bytes chunk = bytes_of(2, READ);
    struct words w = words_of(4, WRITTEN), lines = words_of(5, WRITTEN);
    say_function(lawendeb_chunk_words_at(THESE(chunk), number(3), THESE(w)), w,
                 lawendeb_chunk_lines_at(THESE(chunk), number(3), THESE(lines)), lines,
                 lawendeb_chunk_head_at(THESE(chunk), number(3)));
}

/* ---- records: words, tags, payloads, names and bytes of the line, lifted into numbers */

static struct lawendeb_answer lifted(struct numbers to) {
    struct words w = words_of(2, READ);
    struct bytes tags = bytes_of(3, READ), text = bytes_of(6, READ);
    struct numbers payloads = numbers_of(4, READ), names = numbers_of(5, READ);
    return lawendeb_lift(THESE(w), THESE(tags), THESE(payloads), THESE(names), THESE(text),
                         THESE(to));
}

static struct numbers lend_numbers(size_t n) {
    struct numbers l;
    l.at = (uint64_t *)lend(n, 8, NULL), l.n = n;
    return l;
}

/* A sum of a record's numbers goes on. */
static uint64_t mixed(uint64_t sum, const uint64_t *record) {
    int i;
    for (i = 0; i < N; i++)
        sum = (sum % 2147483647 * 31 + record[i] % 4294967291) % 2147483647;
    return sum;
}

/* How many records are written, with room for so many and a number short of one more. */
static void plan(void) {
    const size_t room = number(7);
    struct numbers to = lend_numbers(room * N + N - 1);
    struct lawendeb_answer a = lifted(to);
    size_t n = 0;
    while (n < room && !is_lent((unsigned char *)(to.at + n * N), N * 8))
        n++;
    CHECK(is_lent((unsigned char *)(to.at + n * N), (to.n - n * N) * 8));
    say_two(a.number, a.place), say_number(n);
}

/* So many words have one sum, each a line of its own. */
static void sums(void) {
    const size_t n = put(NULL, 4, parts[2]), group = number(7);
    struct numbers to = lend_numbers(n * N);
    uint64_t sum = 0;
    size_t i;
    CHECK(lifted(to).number == LAWENDEB_ACCEPTED);
    said_n = 0;
    for (i = 0; i < n; i++) {
        sum = mixed(i % group == 0 ? 0 : sum, to.at + i * N);
        if (i % group == group - 1) {
            say(i < group ? "" : "\n");
            say(parts[1]), say_two(i / group, sum);
        }
    }
}

/* Into eight records, each of which no word has: what each place holds then. */
static void lift(void) {
    static const uint64_t operand[4] = {LAWENDEB_OPERAND_EXTRA_ARG, 999, 0, 0};
    static const uint64_t target[4] = {LAWENDEB_TARGET_JUMP, 999, 0, 0};
    uint64_t blank[N] = {
        999, 4294967295u, 127, 1, 1, 999, 1, 999, 1, 25, LAWENDEB_EFFECT_CLOSE_UPVALUES, 255};
    struct numbers to = lend_numbers(8 * N);
    struct lawendeb_answer a;
    int i;
    for (i = 0; i < 4; i++)
        memcpy(blank + LAWENDEB_RECORD_OPERAND(i), operand, sizeof operand);
    for (i = 0; i < 3; i++)
        memcpy(blank + LAWENDEB_RECORD_READ(i), target, sizeof target);
    for (i = 0; i < 2; i++)
        memcpy(blank + LAWENDEB_RECORD_WRITE(i), target, sizeof target);
    blank[LAWENDEB_RECORD_OPERANDS] = 4;
    blank[LAWENDEB_RECORD_READS] = 3, blank[LAWENDEB_RECORD_WRITES] = 2;
    for (i = 0; i < 8; i++)
        memcpy(to.at + i * N, blank, sizeof blank);
    a = lifted(to);
    say_two(a.number, a.place);
    for (i = 0; i < 8; i++) {
        const uint64_t *r = to.at + i * N;
        say("\nplace"), say_two((uint64_t)i, r[LAWENDEB_RECORD_PC]);
        say_two(r[LAWENDEB_RECORD_RAW_WORD], mixed(0, r));
    }
}

/* ---- the fields of a word of 5.3 */

static void decode(void) {
    struct lawendeb_fields_53 f = lawendeb_decode_53(small(2));
    say_two(f.opcode, f.mode), say_number(f.a), say_two(f.b, f.c), say_two(f.bx, f.ax);
    say(f.sbx < 0 ? " below 0" : f.sbx == 0 ? " 0" : f.sbx == 131072 ? " 131072" : "");
}

/* ---- the areas: what a question's name asks; what there is no function for in C asks nothing */

static void title(void) {
}

struct area {
    const char *name;
    const struct version *version;
    struct {
        const char *name;
        void (*ask)(void);
    } questions[11];
};

static const struct area areas[] = {
    {"runs", &lua54, {{"step", step}, {"serves", NULL}, {"run", run}, {"runs", runs}}},
    {"witness", &lua54, {{"path", path}, {"path_53", path_53}}},
    {"service",
     &lua54,
     {{"title", title},
      {"distances", distances},
      {"crossings", crossings},
      {"within", within},
      {"all", all}}},
    {"meter",
     &lua54,
     {{"title", title},
      {"feed", feed},
      {"begin", begin},
      {"reset", reset},
      {"straight", straight}}},
    {"budget",
     &lua54,
     {{"title", title}, {"feed", feed_four}, {"begin", begin_four}, {"reset", reset_four}}},
    {"touches", &lua54, {{"touches", touches}, {"touches_53", touches_53}}},
    {"assignment", &lua54, {{"assignment", assignment}}},
    {"rehearsal", &lua54, {{"rehearse", rehearsal}}},
    {"chunk", &lua54, {{"count", count}, {"fill", fill}, {"name", name}}},
    {"index",
     &lua54,
     {{"list", functions}, {"number", by_number}, {"place", by_place}, {"why", NULL}}},
    {"records", &lua54, {{"plan", plan}, {"sums", sums}, {"lift", lift}}},
    {"lua53",
     &lua53,
     {{"title", title},
      {"decode", decode},
      {"step", step},
      {"run", run},
      {"distance", distances},
      {"crossings", crossings},
      {"within", within},
      {"feed", feed},
      {"begin", begin},
      {"reset", reset}}}};

static void read_file(const char *area, const char *name, char *page) {
    char path_of[64];
    FILE *file;
    snprintf(path_of, sizeof path_of, "crates/%s_cases/%s", area, name);
    file = fopen(path_of, "rb");
    if (file == NULL) {
        printf("calls: no %s\n", path_of);
        exit(2);
    }
    page[fread(page, 1, PAGE, file)] = 0;
    fclose(file);
}

/* Where the line behind this one begins. */
static const char *after_line(const char *line) {
    const char *end = strchr(line, '\n');
    return end == NULL ? line + strlen(line) : end + 1;
}

/* Holds what was said to as many lines of what is stored; where those end. */
static const char *hold(const char *area, const char *at) {
    const char *line = said;
    int same = 1;
    while (*line != 0) {
        const size_t n = (size_t)(after_line(line) - line);
        if (strncmp(line, at, n) != 0) {
            const int m = (int)(after_line(at) - at);
            printf("calls: %s_cases: C answers\n%.*s  and stored is\n%.*s", area, (int)n, line, m,
                   at);
            same = 0;
        }
        line += n, at = after_line(at);
    }
    CHECK(same);
    said_n = 0, said[0] = 0;
    return at;
}

/* Asks a line's question, unless its name is none; whether it is one that C has no function for. */
static int asked(const struct area *a, char *line) {
    static const char none[1] = "";
    const int is_open = line[0] != 0 && line[strlen(line) - 1] == '\\';
    int i;
    for (i = 0; i < PARTS; i++) {
        char *bar = line == NULL ? NULL : strchr(line, '|');
        parts[i] = line == NULL ? none : line;
        if (bar != NULL)
            *bar++ = 0;
        line = bar;
    }
    v = a->version;
    for (i = 0; a->questions[i].name != NULL; i++)
        if (strcmp(parts[0], a->questions[i].name) == 0) {
            if (a->questions[i].ask == NULL)
                return 1;
            say(parts[1]);
            a->questions[i].ask();
            say(is_open ? "" : "\n");
            CHECK(taken_back());
        }
    return 0;
}

/* All of an area. What C has no function for is passed over, with its line of the stored ones. */
static void ask_all(const struct area *a) {
    const int before = checks;
    const char *at = stored;
    char *line = questions, *end;
    int passed = 0, answers = 0;
    read_file(a->name, "stdin", questions);
    read_file(a->name, "stdout", stored);
    for (; (end = strchr(line, '\n')) != NULL; line = end + 1) {
        *end = 0;
        if (asked(a, line))
            passed++, at = after_line(at);
        if (said_n > 0 && said[said_n - 1] == '\n')
            answers++, at = hold(a->name, at);
    }
    CHECK(*at == 0 && *line == 0 && answers > 0);
    printf("calls: %s_cases: %d answers, %d passed over, %d checks\n", a->name, answers, passed,
           checks - before);
}

/* ---- what the files have no question for: the fields of 5.4, every bit of both versions */

/* Document 01's sheet: LOADI, ADDI, MMBINI, a JMP back to the ADDI. */
static const uint32_t sheet[4] = {2147483649u, 2147483669u, 109051951u, 2147483192u};

/* Lua 5.3: FORPREP to a FORLOOP, which goes back to a MOVE or on to a RETURN. */
static const uint32_t loop_53[4] = {2147483688u, 0, 2147434535u, 38};

/* MOVE after MOVE. */
static uint32_t many[MANY];

static uint8_t ones[W];

/* Every field of these bits, by masks and shifts; the mode apart. */
static int decoded(uint32_t word) {
    struct lawendeb_fields f = lawendeb_decode(word);
    return f.opcode == (word & 127) && f.a == (word >> 7 & 255) && f.k == (word >> 15 & 1) &&
           f.b == (word >> 16 & 255) && f.c == word >> 24 && f.bx == word >> 15 &&
           f.ax == word >> 7 && f.sb == (int32_t)f.b - 127 && f.sc == (int32_t)f.c - 127 &&
           f.sbx == (int32_t)f.bx - 65535 && f.sj == (int32_t)f.ax - 16777215;
}
static int decoded_53(uint32_t word) {
    struct lawendeb_fields_53 f = lawendeb_decode_53(word);
    return f.opcode == (word & 63) && f.a == (word >> 6 & 255) && f.c == (word >> 14 & 511) &&
           f.b == word >> 23 && f.bx == word >> 14 && f.ax == word >> 6 &&
           f.sbx == (int32_t)f.bx - 131071;
}

static void fields(void) {
    const uint32_t modes[6][2] = {{83, LAWENDEB_MODE_NONE}, {0, LAWENDEB_MODE_ABC},
                                  {3, LAWENDEB_MODE_ABX},   {1, LAWENDEB_MODE_ASBX},
                                  {82, LAWENDEB_MODE_AX},   {56, LAWENDEB_MODE_SJ}};
    const uint32_t modes_53[6][2] = {{47, LAWENDEB_MODE_NONE}, {63, LAWENDEB_MODE_NONE},
                                     {0, LAWENDEB_MODE_ABC},   {1, LAWENDEB_MODE_ABX},
                                     {30, LAWENDEB_MODE_ASBX}, {46, LAWENDEB_MODE_AX}};
    struct lawendeb_fields f = lawendeb_decode(sheet[0]);
    struct lawendeb_fields_53 g = lawendeb_decode_53(loop_53[2]);
    uint32_t i;
    CHECK(f.mode == LAWENDEB_MODE_ASBX && f.opcode == 1 && f.a == 0 && f.k == 0 && f.b == 0);
    CHECK(f.c == 128 && f.bx == 65536 && f.ax == 16777216);
    CHECK(f.sb == -127 && f.sc == 1 && f.sbx == 1 && f.sj == 1);
    CHECK(g.mode == LAWENDEB_MODE_ASBX && g.opcode == 39 && g.a == 0 && g.b == 255);
    CHECK(g.c == 509 && g.bx == 131069 && g.ax == 33553664 && g.sbx == -2);
    CHECK(decoded(0) && decoded(UINT32_MAX) && decoded_53(0) && decoded_53(UINT32_MAX));
    for (i = 0; i < 32; i++) {
        CHECK(decoded((uint32_t)1 << i) && decoded(~((uint32_t)1 << i)));
        CHECK(decoded_53((uint32_t)1 << i) && decoded_53(~((uint32_t)1 << i)));
    }
    for (i = 0; i < 6; i++) {
        CHECK(lawendeb_decode(modes[i][0]).mode == modes[i][1]);
        CHECK(lawendeb_decode_53(modes_53[i][0]).mode == modes_53[i][1]);
    }
}

/* ---- every count of weights and each weight of them, where the files have a few */

static int answered(struct lawendeb_answer a, uint64_t k, uint64_t place) {
    return a.number == k && a.place == place;
}
static int ran(struct lawendeb_run r, uint64_t k, uint64_t place) {
    return r.number == k && r.place == place && r.longest == 0 && r.first == 0;
}
static int ran_both(struct lawendeb_run_range r, uint64_t k, uint64_t place) {
    return r.number == k && r.place == place &&
           !(r.low_longest | r.low_first | r.high_longest | r.high_first);
}
static int is_meter(struct lawendeb_meter m, uint32_t begun, uint32_t last, uint32_t sum,
                    uint32_t services, uint32_t highest) {
    return m.begun == begun && m.last == last && m.count == sum && m.services == services &&
           m.highest == highest;
}

/* Marks, lengths and a list of MANY places, everything LENT. */
static uint8_t marks[MANY], within_list[MANY];
static uint32_t lengths[MANY];

static void lend_all(void) {
    memset(marks, LENT, sizeof marks);
    memset(within_list, LENT, sizeof within_list);
    memset(lengths, LENT, sizeof lengths);
}
static int lent_from(size_t i) {
    return is_lent(marks + i, MANY - i) && is_lent(within_list, MANY) &&
           is_lent((const unsigned char *)(lengths + i), 4 * (MANY - i));
}

static void weights_of(const struct version *version, const uint32_t *four_words) {
    uint8_t table[W + 1];
    const struct lawendeb_meter before = {1, 0, 2, 5, 2};
    size_t i;
    memset(table, 1, sizeof table);
    lend_all();
    for (i = 0; i <= W + 1; i++) {
        struct lawendeb_meter m = before;
        const uint64_t k = LAWENDEB_WEIGHTS_REFUSED;
        if (i == W)
            continue;
        CHECK(ran(version->run(four_words, 4, table, i, marks, 4, lengths, 4), k, 0));
        CHECK(
            ran_both(version->runs(four_words, 4, table, i, ones, W, marks, 4, lengths, 4), k, 0));
        CHECK(
            ran_both(version->runs(four_words, 4, ones, W, table, i, marks, 4, lengths, 4), k, 0));
        CHECK(answered(version->feed(four_words, 4, table, i, &m, 1), k, 0));
        CHECK(memcmp(&m, &before, sizeof m) == 0);
    }
    for (i = 0; i < W; i++) {
        struct lawendeb_meter m = before;
        uint64_t k = LAWENDEB_WEIGHTS_REFUSED;
        table[i] = 0;
        CHECK(ran(version->run(four_words, 4, table, W, marks, 4, lengths, 4), k, i));
        CHECK(
            ran_both(version->runs(four_words, 4, table, W, ones, W, marks, 4, lengths, 4), k, i));
        CHECK(
            ran_both(version->runs(four_words, 4, ones, W, table, W, marks, 4, lengths, 4), k, i));
        CHECK(answered(version->feed(four_words, 4, table, W, &m, 1), k, i));
        CHECK(memcmp(&m, &before, sizeof m) == 0);
        table[i] = 2, k = LAWENDEB_LOW_ABOVE_HIGH;
        CHECK(
            ran_both(version->runs(four_words, 4, table, W, ones, W, marks, 4, lengths, 4), k, i));
        table[i] = 1;
    }
    CHECK(lent_from(0));
}

/* Too many words, for what the files have no room: 1 before all else, and nothing is written. */
static void too_many(const struct version *u) {
    enum { ONE = LAWENDEB_TOO_MANY_WORDS };
    uint32_t *l = lengths;
    lend_all();
    CHECK(u->nearest(many, MANY, 0, marks, 0, l, 0).number == ONE);
    CHECK(u->crossed(many, MANY, 0, marks, MANY, l, MANY).number == ONE);
    CHECK(u->within(many, MANY, 0, marks, 0, l, 0, within_list, 0).number == ONE);
    CHECK(u->path(many, MANY, ones, 0, marks, 0, l, 0, l, 0).number == ONE);
    CHECK(lawendeb_rehearse(many, MANY, NULL, 0, NULL, 0, NULL, 0, 1, 1, NULL, 0, 9, marks, 0, l, 0)
              .number == ONE);
    CHECK(lent_from(0));
}

/* ---- two tables, the most words, and four meters of Lua 5.3 */

static void siblings_53(void) {
    enum { DOME = LAWENDEB_DOME, AXIS = LAWENDEB_AXIS };
    const uint32_t sums_53[4] = {80, 90, 70, 40};
    struct lawendeb_run_range r;
    struct lawendeb_run most;
    struct lawendeb_meters ms, before;
    /* MOVE 20, RETURN 40, FORLOOP 30, FORPREP 10; 200 at all that no word of 5.3 weighs by */
    uint8_t heavy[W], zero[W];
    size_t i;
    memset(heavy, 1, 64), memset(heavy + 64, 200, W - 64);
    heavy[0] = 20, heavy[38] = 40, heavy[39] = 30, heavy[40] = 10;
    memset(zero, 1, W), zero[100] = 0;
#define BOTH(low, low_n, high, high_n, these, n)                                                   \
    lawendeb_longest_runs_53(these, n, low, low_n, high, high_n, marks, 4, lengths, 4)
    lend_all();
    r = BOTH(ones, W, heavy, W, loop_53, 4);
    CHECK(r.number == 0 && r.place == 0 && r.low_longest == 3 && r.low_first == 0);
    CHECK(r.high_longest == 90 && r.high_first == 1 && lent_from(4));
    for (i = 0; i < 4; i++)
        CHECK(marks[i] == 1 && lengths[i] == sums_53[i]);
    lend_all();
    CHECK(ran_both(BOTH(ones, W, ones, W, many, MANY), LAWENDEB_TOO_MANY_WORDS, 0));
    CHECK(ran_both(BOTH(zero, W, ones, W, many, 5), LAWENDEB_SHORT_SLICE, 0));
    CHECK(ran_both(BOTH(zero, W, ones, 64, loop_53, 4), LAWENDEB_WEIGHTS_REFUSED, 100));
    CHECK(ran_both(BOTH(heavy, W, zero, W, loop_53, 4), LAWENDEB_WEIGHTS_REFUSED, 100));
    /* 19 looks at all of the tables, too */
    zero[100] = 2;
    CHECK(ran_both(BOTH(zero, W, ones, W, loop_53, 0), LAWENDEB_LOW_ABOVE_HIGH, 100));
    CHECK(ran_both(BOTH(ones, W, ones, W, loop_53, 0), LAWENDEB_NO_WORDS, 0));
    CHECK(lent_from(0));
    CHECK(ran_both(BOTH(ones, W, ones, W, loop_53, 3), LAWENDEB_REACHES_INVALID, 2));
#undef BOTH
    lend_all();
    memset(zero, 255, W);
    many[LAWENDEB_MOST_WORDS - 1] = 38;
    most = lawendeb_longest_run_53(many, MANY - 1, zero, W, marks, MANY, lengths, MANY);
    CHECK(most.number == 0 && most.longest == 255 * LAWENDEB_MOST_WORDS && most.first == 0);
    CHECK(lent_from(MANY - 1));
    many[LAWENDEB_MOST_WORDS - 1] = 0;

    /* a script of each version, within one budget; the order: 20, 21, 1, 18, 11, 10, 22 */
    memset(zero, 1, W), zero[100] = 0;
    memset(&ms, 0, sizeof ms);
#define FEED_53(these, n, weights, script, budget, q)                                              \
    lawendeb_feed_four_53(these, n, weights, W, &ms, script, budget, q)
    CHECK(answered(FEED_53(loop_53, 4, heavy, DOME, 10, 0), LAWENDEB_ACCEPTED, 0));
    CHECK(is_meter(ms.of[DOME], 1, 0, 10, 0, 10) && is_meter(ms.of[AXIS], 0, 0, 0, 0, 0));
    before = ms;
    CHECK(
        answered(lawendeb_feed_four(sheet, 4, ones, W, &ms, AXIS, 10, 0), LAWENDEB_OVER_BUDGET, 0));
    CHECK(answered(FEED_53(loop_53, 4, heavy, DOME, 39, 2), LAWENDEB_OVER_BUDGET, 0));
    CHECK(answered(FEED_53(loop_53, 4, heavy, DOME, 99, 1), LAWENDEB_NO_STEP, 0));
    CHECK(answered(FEED_53(loop_53, 4, zero, DOME, 99, 2), LAWENDEB_WEIGHTS_REFUSED, 100));
    CHECK(answered(FEED_53(many, MANY, zero, DOME, 99, 2), LAWENDEB_TOO_MANY_WORDS, 0));
    CHECK(answered(FEED_53(many, MANY, zero, DOME, 0, 2), LAWENDEB_BUDGET_RANGE, 0));
    CHECK(answered(FEED_53(many, MANY, zero, 4, 0, 2), LAWENDEB_NO_SCRIPT, 0));
    CHECK(memcmp(&ms, &before, sizeof ms) == 0);
    CHECK(answered(lawendeb_feed_four(sheet, 4, ones, W, &ms, AXIS, 11, 0), LAWENDEB_ACCEPTED, 0));
    CHECK(answered(FEED_53(loop_53, 4, heavy, DOME, 41, 2), LAWENDEB_ACCEPTED, 0));
    CHECK(is_meter(ms.of[AXIS], 1, 0, 1, 0, 1) && is_meter(ms.of[DOME], 1, 2, 40, 0, 40));
    ms.of[DOME].last = 4, before = ms;
    CHECK(answered(FEED_53(loop_53, 4, ones, DOME, 1, 9), LAWENDEB_FOREIGN_METER, 0));
    CHECK(memcmp(&ms, &before, sizeof ms) == 0);
#undef FEED_53
}

/* ---- records by the header's names: the P cases, constants of every tag, names */

static uint64_t records_to[ROOM * N];

/* Lifts; whether it is accepted, and all past the n records is as lent. */
static int lifts(const uint32_t *these, size_t n, const uint8_t *tags, const uint64_t *payloads,
                 size_t constants, const uint64_t *names, size_t names_n, const char *text) {
    memset(records_to, LENT, sizeof records_to);
    return answered(lawendeb_lift(these, n, tags, constants, payloads, constants, names, names_n,
                                  (const uint8_t *)text, strlen(text), records_to, ROOM * N),
                    LAWENDEB_ACCEPTED, 0) &&
           is_lent((const unsigned char *)(records_to + n * N), (ROOM - n) * N * 8);
}
static int lifts_words(const uint32_t *these, size_t n) {
    return lifts(these, n, NULL, NULL, 0, NULL, 0, "");
}

static uint64_t at(size_t i, size_t place) {
    return records_to[i * N + place];
}

/* A kind and its three numbers, from a place of record i on. */
static int part(size_t i, size_t place, uint64_t kind, uint64_t x, uint64_t y, uint64_t z) {
    return at(i, place) == kind && at(i, place + 1) == x && at(i, place + 2) == y &&
           at(i, place + 3) == z;
}

static void records(void) {
    enum { PC = LAWENDEB_RECORD_PC, SURE = LAWENDEB_RECORD_CONFIDENCE, TO = LAWENDEB_RECORD_JUMP };
    enum { PAIR = LAWENDEB_RECORD_COMPANION, FALLBACK = LAWENDEB_RECORD_FALLBACK };
    const uint64_t loadi[N] = {0, 2147483649u, 1, 1, 0, 0, 0, 0, 0, 0, 0, 0, 0, 0, 2, 0, 0, 0,
                               0, 4,           1, 0, 0, 0, 0, 0, 0, 0, 0, 0, 0, 0, 0, 0, 0, 0,
                               0, 0,           0, 0, 0, 0, 0, 0, 1, 0, 0, 0, 0, 0, 0, 0, 0};
    const uint64_t blank[N] = {0, 83, 83};
    const uint32_t back[1] = {2147483192u}, call[2] = {16940996u, 71}, loadkx[1] = {4};
    const uint32_t mmbin[1] = {46}, unknown[1] = {83}, two[2] = {82, 163913},
                   prepare[3] = {74, 0, 0};
    CHECK(lifts_words(sheet, 4) && memcmp(records_to, loadi, sizeof loadi) == 0);
    CHECK(at(3, PC) == 3 && at(3, TO) == 1 && at(3, TO + 1) == 1);
    CHECK(lifts_words(back, 1) && at(0, TO) == 1 && at(0, TO + 1) == 18446744073709551614u);
    CHECK(lifts_words(call, 2) && at(0, LAWENDEB_RECORD_READS) == 2);
    CHECK(at(0, LAWENDEB_RECORD_WRITES) == 0);
    CHECK(part(0, LAWENDEB_RECORD_READ(0), LAWENDEB_TARGET_REGISTER, 255, 0, 0));
    CHECK(part(0, LAWENDEB_RECORD_READ(1), LAWENDEB_TARGET_REGISTER_RANGE, 255, 254, 0));
    CHECK(lifts_words(loadkx, 1) && at(0, PAIR) == 1 && at(0, PAIR + 1) == 1);
    CHECK(part(0, LAWENDEB_RECORD_OPERAND(1), LAWENDEB_OPERAND_CONSTANT, 0, 0, 0));
    CHECK(lifts_words(mmbin, 1) && at(0, PAIR) == 0);
    CHECK(part(0, LAWENDEB_RECORD_EFFECT, LAWENDEB_EFFECT_COMPANION_PAIR, 0, 1, 6));
    CHECK(at(0, FALLBACK) == 1 && at(0, FALLBACK + 1) == 6);
    CHECK(lifts_words(unknown, 1) && memcmp(records_to, blank, sizeof blank) == 0);
    CHECK(lifts_words(two, 2) && at(0, SURE) == 1 && at(1, TO) == 1 && at(1, TO + 1) == 0);
    CHECK(lifts_words(prepare, 3) && at(0, TO) == 1 && at(0, TO + 1) == 1);
    CHECK(lifts_words(sheet, 0));
}

static uint64_t place_of(uint64_t start, uint64_t length) {
    return start + (length << 32);
}

/* Constants of every tag, an index past them, names: as they were lent. */
static void values(void) {
    const uint8_t tags[8] = {LAWENDEB_TAG_NIL,          LAWENDEB_TAG_FALSE,      LAWENDEB_TAG_TRUE,
                             LAWENDEB_TAG_INTEGER,      LAWENDEB_TAG_FLOAT,      LAWENDEB_TAG_FLOAT,
                             LAWENDEB_TAG_SHORT_STRING, LAWENDEB_TAG_LONG_STRING};
    const uint64_t nan_bits = 9221120237041090561u, minus_zero = 9223372036854775808u;
    const uint64_t payloads[8] = {
        7, 7, 7, UINT64_MAX, minus_zero, nan_bits, place_of(0, 4), place_of(4, 5)};
    const uint64_t kinds[9] = {0, 1, 1, 2, 3, 3, 4, 5, 0};
    const uint64_t shown[9] = {
        0, 0, 1, UINT64_MAX, minus_zero, nan_bits, place_of(0, 4), place_of(4, 5), 0};
    const uint64_t names[2] = {place_of(9, 0), LAWENDEB_UNNAMED};
    const size_t second = LAWENDEB_RECORD_OPERAND(1);
    uint32_t these[ROOM];
    uint32_t i;
    for (i = 0; i < 9; i++)
        these[i] = 3 + 128 + 32768 * i; /* LOADK */
    for (i = 0; i < 3; i++)
        these[9 + i] = 9 + 128 + 65536 * i; /* GETUPVAL */
    CHECK(lifts(these, ROOM, tags, payloads, 8, names, 2, "_ENVprint"));
    for (i = 0; i < 9; i++)
        CHECK(part(i, second, LAWENDEB_OPERAND_CONSTANT, i, kinds[i], shown[i]));
    CHECK(part(9, second, LAWENDEB_OPERAND_UPVALUE, 0, 1, place_of(9, 0)));
    CHECK(part(10, second, LAWENDEB_OPERAND_UPVALUE, 1, 0, 0));
    CHECK(part(11, second, LAWENDEB_OPERAND_UPVALUE, 2, 0, 0));
}

/* ---- null, with a length of 0

   An access through null stops the program, and what the archives clear comes here first:
   examples/calls links with --wrap=memset. */

static unsigned cleared, cleared_null;

#ifdef __cplusplus
extern "C" {
#endif
void *__real_memset(void *to, int byte, size_t n);
void *__wrap_memset(void *to, int byte, size_t n);
#ifdef __cplusplus
}
#endif

void *__wrap_memset(void *to, int byte, size_t n) {
    cleared++;
    cleared_null += to == NULL;
    return __real_memset(to, byte, n);
}

static int is_near(struct lawendeb_nearest a, uint64_t k) {
    return a.number == k && !(a.place | a.found | a.fewest);
}
static int is_crossed(struct lawendeb_crossed a, uint64_t k) {
    return a.number == k && !(a.place | a.count);
}
static int is_path(struct lawendeb_path a, uint64_t k) {
    return a.number == k && !(a.place | a.longest | a.first | a.count);
}
static int is_counts(struct lawendeb_counts a, uint64_t k) {
    return a.number == k && !(a.place | a.words | a.constants | a.names);
}
static int is_rehearsal(struct lawendeb_rehearsal a, uint64_t k) {
    return a.number == k && !(a.place | a.waits[0] | a.waits[1] | a.waits[2] | a.waits[3]);
}
static int is_name(struct lawendeb_name a) {
    return !(a.number | a.place | a.in_chunk | a.start | a.size);
}

static void nulls_of(const struct version *u, const uint32_t *four_words) {
    enum { SHORT = LAWENDEB_SHORT_SLICE, NONE = LAWENDEB_NO_WORDS };
    enum { WEIGHTS = LAWENDEB_WEIGHTS_REFUSED, STEP = LAWENDEB_NO_STEP };
    const struct lawendeb_steps none = u->successors(NULL, 0, 0);
    const struct lawendeb_touched nothing = u->touches(NULL, 0, 0);
    const uint32_t *s = four_words;
    struct lawendeb_meter m;
    struct lawendeb_meters ms;
    uint8_t *o = marks, *t = within_list;
    uint32_t *l = lengths, p[4];
    memset(&m, 0, sizeof m), memset(&ms, 0, sizeof ms);
    lend_all();
    CHECK(!(none.kind | none.first | none.second));
    CHECK(!(nothing.reads.count | nothing.reads_to_top.count | nothing.constants.count |
            nothing.upvalues.count | nothing.writes.count | nothing.writes_to_top.count |
            nothing.upvalue_writes.count | nothing.edge_writes.count | nothing.edge));
    /* nothing at all; words; weights; marks; lengths; all but the weights */
    CHECK(ran(u->run(NULL, 0, NULL, 0, NULL, 0, NULL, 0), WEIGHTS, 0));
    CHECK(ran(u->run(NULL, 0, ones, W, o, 4, l, 4), NONE, 0));
    CHECK(ran(u->run(s, 4, NULL, 0, o, 4, l, 4), WEIGHTS, 0));
    CHECK(ran(u->run(s, 4, ones, W, NULL, 0, l, 4), SHORT, 0));
    CHECK(ran(u->run(s, 4, ones, W, o, 4, NULL, 0), SHORT, 0));
    CHECK(ran(u->run(NULL, 0, ones, W, NULL, 0, NULL, 0), NONE, 0));
    CHECK(ran_both(u->runs(NULL, 0, NULL, 0, NULL, 0, NULL, 0, NULL, 0), WEIGHTS, 0));
    CHECK(ran_both(u->runs(NULL, 0, ones, W, ones, W, NULL, 0, NULL, 0), NONE, 0));
    CHECK(ran_both(u->runs(s, 4, NULL, 0, ones, W, o, 4, l, 4), WEIGHTS, 0));
    CHECK(ran_both(u->runs(s, 4, ones, W, NULL, 0, o, 4, l, 4), WEIGHTS, 0));
    CHECK(ran_both(u->runs(s, 4, ones, W, ones, W, NULL, 0, l, 4), SHORT, 0));
    CHECK(ran_both(u->runs(s, 4, ones, W, ones, W, o, 4, NULL, 0), SHORT, 0));
    CHECK(is_path(u->path(NULL, 0, NULL, 0, NULL, 0, NULL, 0, NULL, 0), WEIGHTS));
    CHECK(is_path(u->path(NULL, 0, ones, W, NULL, 0, NULL, 0, NULL, 0), NONE));
    CHECK(is_path(u->path(s, 4, ones, W, o, 4, l, 4, NULL, 0), SHORT));
    CHECK(is_path(u->path(s, 4, ones, W, NULL, 0, l, 4, p, 4), SHORT));
    CHECK(is_path(u->path(s, 4, ones, W, o, 4, NULL, 0, p, 4), SHORT));
    CHECK(answered(u->feed(NULL, 0, ones, W, &m, 0), STEP, 0));
    CHECK(answered(u->feed(s, 4, NULL, 0, &m, 0), WEIGHTS, 0));
    CHECK(answered(u->feed(NULL, 0, NULL, 0, &m, 0), WEIGHTS, 0));
    CHECK(answered(u->feed_four(NULL, 0, ones, W, &ms, 0, 9, 0), STEP, 0));
    CHECK(answered(u->feed_four(s, 4, NULL, 0, &ms, 0, 9, 0), WEIGHTS, 0));
    CHECK(answered(u->feed_four(NULL, 0, NULL, 0, &ms, 0, 9, 0), WEIGHTS, 0));
    CHECK(is_near(u->nearest(NULL, 0, 0, NULL, 0, NULL, 0), NONE));
    CHECK(is_near(u->nearest(s, 4, 0, NULL, 0, l, 4), SHORT));
    CHECK(is_near(u->nearest(s, 4, 0, o, 4, NULL, 0), SHORT));
    CHECK(is_crossed(u->crossed(NULL, 0, 0, NULL, 0, NULL, 0), NONE));
    CHECK(is_crossed(u->crossed(s, 4, 0, NULL, 0, l, 4), SHORT));
    CHECK(is_crossed(u->crossed(s, 4, 0, o, 4, NULL, 0), SHORT));
    CHECK(answered(u->within(NULL, 0, 9, NULL, 0, NULL, 0, NULL, 0), NONE, 0));
    CHECK(answered(u->within(s, 4, 9, NULL, 0, l, 4, t, 4), SHORT, 0));
    CHECK(answered(u->within(s, 4, 9, o, 4, NULL, 0, t, 4), SHORT, 0));
    CHECK(answered(u->within(s, 4, 9, o, 4, l, 4, NULL, 0), SHORT, 0));
    CHECK(lent_from(0));
}

/* A chunk of one function that has nothing, and one of a word, a constant and an upvalue. */
#define HEADER                                                                                     \
    27, 76, 117, 97, 84, 0, 25, 147, 13, 10, 26, 10, 4, 8, 8, 120, 86, 0, 0, 0, 0, 0, 0, 0, 0, 0,  \
        0, 0, 40, 119, 64
static const uint8_t bare[] = {HEADER, 0,   128, 128, 128, 0,   0,   2,
                               128,    128, 128, 128, 128, 128, 128, 128};
static const uint8_t chunk_of_one[] = {HEADER, 1,   128, 128, 128, 0,   1,   2,  129, 71, 0,
                                       1,      0,   129, 4,   130, 120, 129, 1,  0,   0,  128,
                                       128,    128, 128, 129, 133, 95,  69,  78, 86};

static void nulls(void) {
    enum { SHORT = LAWENDEB_SHORT_SLICE, NONE = LAWENDEB_NO_WORDS };
    enum { MALFORMED = LAWENDEB_MALFORMED_CHUNK, SIZE = sizeof chunk_of_one };
    const uint64_t none = LAWENDEB_UNNAMED, payloads[4] = {0, 0, 0, 0};
    const uint8_t nils[4] = {0, 0, 0, 0}, *c = chunk_of_one;
    struct lawendeb_rotation r;
    struct lawendeb_room room;
    uint32_t two_words[2];
    uint8_t two_tags[2];
    uint64_t two_payloads[2];
    nulls_of(&lua54, sheet);
    nulls_of(&lua53, loop_53);

    /* a lift: all; the numbers; the string bytes, with names and constants that need none */
    CHECK(answered(lawendeb_lift(NULL, 0, NULL, 0, NULL, 0, NULL, 0, NULL, 0, NULL, 0), 0, 0));
    CHECK(answered(lawendeb_lift(sheet, 4, NULL, 0, NULL, 0, NULL, 0, NULL, 0, NULL, 0), SHORT, 0));
    CHECK(answered(
        lawendeb_lift(sheet, 4, nils, 4, payloads, 4, NULL, 0, NULL, 0, records_to, 4 * N), 0, 0));
    CHECK(answered(lawendeb_lift(sheet, 4, nils, 4, NULL, 0, NULL, 0, NULL, 0, records_to, 4 * N),
                   LAWENDEB_CONSTANT_COUNT, 0));
    CHECK(answered(lawendeb_lift(sheet, 4, NULL, 0, NULL, 0, &none, 1, NULL, 0, records_to, 4 * N),
                   0, 0));

    lend_all();
    CHECK(answered(lawendeb_definite_assignment(NULL, 0, 0, NULL, 0), NONE, 0));
    CHECK(answered(lawendeb_definite_assignment(NULL, 0, 0, marks, 4), NONE, 0));
    CHECK(answered(lawendeb_definite_assignment(sheet, 4, 0, NULL, 0), SHORT, 0));
    CHECK(lent_from(0));

    /* a rehearsal of one script, all that it does not need zeroed; then of none, and without room
     */
    memset(&r, 0, sizeof r);
    r.scripts[0].at = sheet, r.scripts[0].n = 4, r.count = 1, r.q = 1, r.limit = 100;
    r.marks = marks, r.marks_n = 4, r.lengths = lengths, r.lengths_n = 4;
    CHECK(is_rehearsal(lawendeb_rehearse_rotation(&r), LAWENDEB_ACCEPTED));
    r.count = 2;
    CHECK(is_rehearsal(lawendeb_rehearse_rotation(&r), NONE));
    r.count = 1, r.marks = NULL, r.marks_n = 0;
    CHECK(is_rehearsal(lawendeb_rehearse_rotation(&r), SHORT));
    r.marks = marks, r.marks_n = 4, r.lengths = NULL, r.lengths_n = 0;
    CHECK(is_rehearsal(lawendeb_rehearse_rotation(&r), SHORT));
    memset(&r, 0, sizeof r);
    CHECK(is_rehearsal(lawendeb_rehearse_rotation(&r), LAWENDEB_OUT_OF_RANGE));
    r.count = 4, r.q = 1;
    CHECK(is_rehearsal(lawendeb_rehearse_rotation(&r), NONE));

    /* a chunk; room for a function that has nothing; no room for one that has */
    memset(&room, 0, sizeof room);
    CHECK(is_counts(lawendeb_chunk_count(NULL, 0, 0), MALFORMED));
    CHECK(is_counts(lawendeb_chunk_fill_room(NULL, 0, 0, &room), MALFORMED));
    CHECK(is_counts(lawendeb_chunk_fill_room(bare, sizeof bare, 0, &room), LAWENDEB_ACCEPTED));
    CHECK(is_counts(lawendeb_chunk_fill_room(c, SIZE, 0, &room), SHORT));
    memset(two_words, LENT, sizeof two_words), memset(two_tags, LENT, sizeof two_tags);
    memset(two_payloads, LENT, sizeof two_payloads);
    room.words = two_words, room.words_n = 2, room.tags = two_tags, room.tags_n = 2;
    room.payloads = two_payloads, room.payloads_n = 2;
    CHECK(is_counts(lawendeb_chunk_fill_room(c, SIZE, 0, &room), SHORT));
    CHECK(is_lent((unsigned char *)two_words, sizeof two_words) && is_lent(two_tags, 2) &&
          is_lent((unsigned char *)two_payloads, sizeof two_payloads));
    CHECK(is_name(lawendeb_upvalue_name(NULL, 0, NULL, 0, NULL, 0, NULL, 0, 0)));
    CHECK(is_name(lawendeb_upvalue_name(NULL, 0, &none, 1, NULL, 0, &none, 1, 0)));

    /* a chunk's functions: no chunk, then none of the slices */
    CHECK(lawendeb_chunk_functions(NULL, 0).number == MALFORMED);
    CHECK(lawendeb_chunk_index(NULL, 0, NULL, 0, NULL, 0).number == MALFORMED);
    CHECK(lawendeb_chunk_index(c, SIZE, NULL, 0, NULL, 0).number == SHORT);
    CHECK(lawendeb_chunk_head(NULL, 0, 0).number == MALFORMED);
    CHECK(lawendeb_chunk_head_at(NULL, 0, 0).number == MALFORMED);
    CHECK(is_counts(lawendeb_chunk_words_at(c, SIZE, 32, NULL, 0), SHORT));
    CHECK(is_counts(lawendeb_chunk_lines_at(c, SIZE, 32, NULL, 0), SHORT));
    CHECK(is_counts(lawendeb_chunk_lines(NULL, 0, 0, NULL, 0), MALFORMED));
    CHECK(cleared > 0 && cleared_null == 0);
}

int main(void) {
    size_t i;
    memset(ones, 1, sizeof ones);
    for (i = 0; i < sizeof areas / sizeof areas[0]; i++)
        ask_all(&areas[i]);
    fields();
    weights_of(&lua54, sheet);
    weights_of(&lua53, loop_53);
    too_many(&lua54);
    too_many(&lua53);
    siblings_53();
    records();
    values();
    nulls();
    printf("calls: %d checks, %d wrong\n", checks, wrong);
    return wrong != 0;
}
