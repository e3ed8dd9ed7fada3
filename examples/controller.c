/* A controller in small. Before a script runs, it asks for the longest run; while it runs, it lends
   one meter at each word that the script goes to, and holds the count against what was foretold. At
   the end of a path it tells the worst of it, which the meter remembers since its reset.
   Both are lent the same weights: here each word weighs 1, so that words are counted. */
#include <inttypes.h>
#include <stdio.h>
#include <string.h>

#include "lawendeb.h"

/* LOADI, ADDI, MMBINI, and a JMP back to the ADDI. */
static const uint32_t script[] = {2147483649u, 2147483669u, 109051951u, 2147483192u};

enum { WORDS = sizeof script / sizeof *script };

static uint8_t weights[LAWENDEB_WEIGHTS];

/* The most weight of the script that can pass without a service, 0 if it is refused. */
static uint64_t longest(void) {
    uint8_t marks[WORDS];
    uint32_t lengths[WORDS];
    struct lawendeb_run run = lawendeb_longest_run(script, WORDS, weights, LAWENDEB_WEIGHTS, marks,
                                                   WORDS, lengths, WORDS);
    if (run.number != LAWENDEB_ACCEPTED) {
        printf("refused: number %" PRIu64 ", place %" PRIu64 "\n", run.number, run.place);
        return 0;
    }
    printf("at most %" PRIu64 " words without a service, from word %" PRIu64 " on\n", run.longest,
           run.first);
    return run.longest;
}

static uint64_t feed(struct lawendeb_meter *m, size_t q) {
    return lawendeb_feed(script, WORDS, weights, LAWENDEB_WEIGHTS, m, q).number;
}

static void show(const struct lawendeb_meter *m) {
    printf("begun %" PRIu32 ", last %" PRIu32 ", count %" PRIu32 ", services %" PRIu32
           ", highest %" PRIu32 "\n",
           m->begun, m->last, m->count, m->services, m->highest);
}

/* Feeds the word numbers in turn, and stops at the first that is refused. A count above the longest
   run would be an alarm; it is proved that none comes. */
static int follow(const char *title, struct lawendeb_meter *m, uint64_t most, const size_t *path,
                  size_t length) {
    puts(title);
    lawendeb_begin(m);
    lawendeb_reset(m);
    for (size_t i = 0; i < length; i++) {
        uint64_t number = feed(m, path[i]);
        printf("  word %zu: %" PRIu64 "; ", path[i], number);
        show(m);
        if (m->count > most) {
            puts("  ALARM: more than was foretold");
            return 1;
        }
        if (number != LAWENDEB_ACCEPTED)
            break;
    }
    printf("  worst %" PRIu32 ", foretold at most %" PRIu64 "\n", m->highest, most);
    return m->highest > most;
}

int main(void) {
    /* Zeroed once: a begin keeps the services and the highest. */
    struct lawendeb_meter m = {0, 0, 0, 0, 0};
    const size_t legal[] = {0, 1, 2, 3, 1, 3, 1};
    const size_t refused[] = {0, 1, 2, 1, 3};
    uint64_t most;
    int alarms;
    memset(weights, 1, sizeof weights);
    most = longest();
    alarms = most == 0;
    alarms += follow("a legal path", &m, most, legal, sizeof legal / sizeof *legal);
    alarms += follow("a refused one", &m, most, refused, sizeof refused / sizeof *refused);
    puts("another function's meter");
    m.last = WORDS;
    printf("  word 1: %" PRIu64 "; ", feed(&m, 1));
    show(&m);
    return alarms != 0;
}
