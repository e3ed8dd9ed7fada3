/* A controller that runs four scripts in turns: axis, focuser, dome and guider. Before they run, it
   asks for the longest run of each and takes four times the largest as the budget, so that no word
   is ever turned back for it. Then it tries a smaller one, and does what a controller can do there:
   a script whose word is turned back waits for its next turn. Each word weighs 1. */
#include <inttypes.h>
#include <stdio.h>
#include <string.h>

#include "lawendeb.h"
#include "scripts.h"

enum { SCRIPTS = 4, MOST = 4 };

struct script {
    const char *name;
    const uint32_t *words;
    size_t n;
    /* the word numbers that it goes to */
    const size_t *path;
    size_t length;
};

/* A course of each. */
static const size_t axis_path[] = {0, 1, 2, 3, 1, 2, 3, 1};
static const size_t focuser_path[] = {0, 0, 0, 1};
static const size_t dome_path[] = {0, 1, 2};
static const size_t guider_path[] = {0, 1, 2, 1, 2, 3};

#define COUNT(list) (sizeof(list) / sizeof *(list))

static const struct script scripts[SCRIPTS] = {
    {"axis", axis, COUNT(axis), axis_path, COUNT(axis_path)},
    {"focuser", focuser, COUNT(focuser), focuser_path, COUNT(focuser_path)},
    {"dome", dome, COUNT(dome), dome_path, COUNT(dome_path)},
    {"guider", guider, COUNT(guider), guider_path, COUNT(guider_path)}};

static uint8_t weights[LAWENDEB_WEIGHTS];

/* Four times the largest longest run, 0 if a script is refused. */
static uint32_t whole_budget(void) {
    uint32_t largest = 0;
    for (uint32_t i = 0; i < SCRIPTS; i++) {
        uint8_t marks[MOST];
        uint32_t lengths[MOST];
        struct lawendeb_run run =
            lawendeb_longest_run(scripts[i].words, scripts[i].n, weights, LAWENDEB_WEIGHTS, marks,
                                 MOST, lengths, MOST);
        if (run.number != LAWENDEB_ACCEPTED) {
            printf("%s is refused: number %" PRIu64 ", place %" PRIu64 "\n", scripts[i].name,
                   run.number, run.place);
            return 0;
        }
        printf("%s: at most %" PRIu64 "\n", scripts[i].name, run.longest);
        if (run.longest > largest)
            largest = (uint32_t)run.longest;
    }
    return SCRIPTS * largest;
}

/* The scripts go on in turns, a word each, until all have ended or none can go on. Answers how many
   words were turned back. */
static unsigned take_turns(struct lawendeb_meters *ms, uint32_t budget) {
    size_t next[SCRIPTS] = {0};
    unsigned back = 0;
    int moved = 1;
    printf("within %" PRIu32 "\n", budget);
    for (uint32_t i = 0; i < SCRIPTS; i++) {
        lawendeb_begin_four(ms, i);
        lawendeb_reset_four(ms, i);
    }
    while (moved) {
        moved = 0;
        for (uint32_t i = 0; i < SCRIPTS; i++) {
            const struct script *s = &scripts[i];
            struct lawendeb_answer a;
            if (next[i] == s->length)
                continue;
            a = lawendeb_feed_four(s->words, s->n, weights, LAWENDEB_WEIGHTS, ms, i, budget,
                                   s->path[next[i]]);
            printf("  %s, word %zu: %" PRIu64 "; counts %" PRIu32 " %" PRIu32 " %" PRIu32 " %" PRIu32
                   "\n",
                   s->name, s->path[next[i]], a.number, ms->of[LAWENDEB_AXIS].count,
                   ms->of[LAWENDEB_FOCUSER].count, ms->of[LAWENDEB_DOME].count,
                   ms->of[LAWENDEB_GUIDER].count);
            if (a.number == LAWENDEB_ACCEPTED)
                next[i]++, moved = 1;
            else
                back++;
        }
    }
    for (uint32_t i = 0; i < SCRIPTS; i++)
        printf("  %s: %zu of %zu words, services %" PRIu32 ", worst %" PRIu32 "\n",
               scripts[i].name, next[i], scripts[i].length, ms->of[i].services, ms->of[i].highest);
    return back;
}

int main(void) {
    /* Zeroed once: a begin keeps the services and the highest. */
    struct lawendeb_meters ms;
    uint32_t budget;
    memset(&ms, 0, sizeof ms);
    memset(weights, 1, sizeof weights);
    budget = whole_budget();
    /* It is proved that nothing is turned back within the whole budget. */
    if (budget == 0 || take_turns(&ms, budget) != 0)
        return 1;
    printf("turned back: %u\n", take_turns(&ms, 8));
    puts("no such script");
    printf("  begin of 4: %" PRIu64 "\n", lawendeb_begin_four(&ms, 4).number);
    return 0;
}
