/* A controller that runs a script of several functions, with a stack of meters: one for each
   activation, begun when its function is entered and dropped when that returns. The script is a
   compiled file, guide.luac; what it does is a trace that a real Lua 5.4.8 made of it: `call K` and
   `tail K` enter function K, `leave` returns, a number is the word that the running function goes
   to. This firmware serves the motors at each entry and at each step that does not go forward.
   Each word weighs 1. */
#include <inttypes.h>
#include <stdio.h>
#include <stdlib.h>
#include <string.h>

#include "lawendeb.h"

enum { MOST_BYTES = 4096, FUNCTIONS = 8, WORDS = 64, TABLES = 16, DEEP = 16 };

struct function {
    uint32_t words[WORDS];
    size_t n;
    uint64_t longest;
};

struct activation {
    const struct function *function;
    struct lawendeb_meter meter;
};

static uint8_t weights[LAWENDEB_WEIGHTS];

static struct function functions[FUNCTIONS];
static size_t functions_n;

static struct activation stack[DEEP];
static size_t deep;

/* What left since the last service, by the meters that were dropped: with the running meter's count
   it is what the controller knows. And what it was told beforehand: nothing before the next service
   passes the sum of the longest runs over the stack. */
static uint64_t left, foretold;

/* The words that have really run since the last service, to hold all that against. */
static uint64_t since;

/* The moment at which the controller's number was highest; the most that really ran; and the words
   at which the meters that are alive, without `left`, summed to less than that. */
static struct {
    uint64_t told, left, since, foretold;
    size_t deep;
} worst;
static uint64_t most_since;
static unsigned short_of;

static int alarm(const char *what) {
    printf("ALARM: %s\n", what);
    return 1;
}

/* The functions of a compiled file: their words, and the longest run of each. */
static int load(const char *name) {
    static uint8_t chunk[MOST_BYTES];
    FILE *file = fopen(name, "rb");
    size_t n = file ? fread(chunk, 1, MOST_BYTES, file) : 0;
    if (file)
        fclose(file);
    for (; functions_n < FUNCTIONS; functions_n++) {
        struct function *f = &functions[functions_n];
        uint8_t tags[TABLES], marks[WORDS];
        uint64_t payloads[TABLES], names[TABLES];
        uint32_t lengths[WORDS];
        struct lawendeb_counts c;
        struct lawendeb_run run;
        struct lawendeb_room room;
        room.words = f->words, room.words_n = WORDS, room.tags = tags, room.tags_n = TABLES;
        room.payloads = payloads, room.payloads_n = TABLES, room.names = names;
        room.names_n = TABLES;
        c = lawendeb_chunk_fill_room(chunk, n, functions_n, &room);
        if (c.number != LAWENDEB_ACCEPTED)
            return functions_n == 0 || c.number != LAWENDEB_MALFORMED_CHUNK;
        f->n = (size_t)c.words;
        run = lawendeb_longest_run(f->words, f->n, weights, LAWENDEB_WEIGHTS, marks, WORDS, lengths,
                                   WORDS);
        if (run.number != LAWENDEB_ACCEPTED)
            return 1;
        f->longest = run.longest;
        printf("function %zu: %zu words, at most %" PRIu64 " without a service\n", functions_n,
               f->n, f->longest);
    }
    return 1;
}

/* A service: nothing has run, and what may run before the next is known. */
static void serve(void) {
    left = 0, since = 0, foretold = 0;
    for (size_t i = 0; i < deep; i++)
        foretold += stack[i].function->longest;
}

static int enter(size_t k) {
    struct activation *a = &stack[deep];
    if (k >= functions_n || deep == DEEP)
        return alarm("no such function, or too deep");
    memset(a, 0, sizeof *a);
    a->function = &functions[k];
    lawendeb_begin(&a->meter);
    deep++;
    serve();
    return 0;
}

static int leave(void) {
    if (deep == 0)
        return alarm("nothing to leave");
    left += stack[--deep].meter.count;
    return 0;
}

/* The running function goes to a word. */
static int go(size_t q) {
    struct activation *a;
    int serves;
    uint64_t told, alive = 0;
    if (deep == 0)
        return alarm("nothing runs");
    a = &stack[deep - 1];
    /* By the step: the meter's services stay at 4,294,967,295 once they are there. */
    serves = a->meter.begun && q <= a->meter.last;
    if (lawendeb_feed(a->function->words, a->function->n, weights, LAWENDEB_WEIGHTS, &a->meter, q)
            .number != LAWENDEB_ACCEPTED)
        return alarm("no step");
    if (serves)
        serve();
    since++;
    told = left + a->meter.count;
    for (size_t i = 0; i < deep; i++)
        alive += stack[i].meter.count;
    short_of += alive < since;
    if (since > most_since)
        most_since = since;
    if (told > worst.told) {
        worst.told = told, worst.left = left, worst.since = since, worst.foretold = foretold;
        worst.deep = deep;
    }
    if (a->meter.count > a->function->longest)
        return alarm("a meter above its function's longest run");
    if (since > told)
        return alarm("more has run than the controller knows");
    if (told > foretold)
        return alarm("more than was foretold");
    return 0;
}

int main(int count, char **arguments) {
    char move[16];
    size_t k, words = 0, entries = 0, deepest = 0;
    uint64_t largest = 0;
    FILE *trace = count == 3 ? fopen(arguments[2], "r") : NULL;
    int alarms;
    memset(weights, 1, sizeof weights);
    if (!trace || load(arguments[1]))
        return 2;
    for (k = 0; k < functions_n; k++)
        if (functions[k].longest > largest)
            largest = functions[k].longest;
    for (alarms = 0; !alarms && fscanf(trace, "%15s", move) == 1;) {
        int tail = strcmp(move, "tail") == 0;
        if (tail || strcmp(move, "call") == 0) {
            alarms = fscanf(trace, "%zu", &k) != 1 || (tail && leave()) || enter(k);
            entries++;
        } else if (strcmp(move, "leave") == 0) {
            alarms = leave();
        } else {
            alarms = go((size_t)strtoul(move, NULL, 10));
            words++;
        }
        if (deep > deepest)
            deepest = deep;
    }
    fclose(trace);
    printf("at most %" PRIu64 " of each function; in this script, whose calls nest %zu deep, up to "
           "%zu times as much: %" PRIu64 "\n",
           largest, deepest, deepest, deepest * largest);
    printf("%zu words and %zu entries; at most %" PRIu64 " words ran without a service\n", words,
           entries, most_since);
    printf("the controller knew at worst of %" PRIu64 ": %" PRIu64 " left and %" PRIu64
           " of the running meter, %zu deep; %" PRIu64 " had run, at most %" PRIu64 " foretold\n",
           worst.told, worst.left, worst.told - worst.left, worst.deep, worst.since,
           worst.foretold);
    printf("the meters alive alone would have told too little at %u words\n", short_of);
    return alarms || words == 0;
}
