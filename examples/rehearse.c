/* An owner tries turn lengths before a public evening: the four scripts of the example controller
   in rotation, and how long each waits for its turn at each length q. */
#include <inttypes.h>
#include <stdio.h>

#include "lawendeb.h"
#include "scripts.h"

#define COUNT(list) (sizeof(list) / sizeof *(list))

enum { SCRIPTS = 4, MOST = 4, LIMIT = 1000000 };

/* Handed out in the order in which words with two steps come, whatever their script: an ADDI goes on
   to its metamethod word (0) or past it (1), a loop goes round (0) or on (1). The axis, which never
   ends, is alone at last and uses up what is left: there the rehearsal stops. */
static const uint8_t choices[] = {0, 0, 0, 0, 0, 0, 1, 0, 0, 0, 0, 0, 1, 0, 0, 0,
                                  0, 0, 0, 1, 0, 1, 0, 0, 1, 1, 0, 1, 1, 0, 1, 0};

/* 1 if the scripts are refused. */
static int rehearse(uint32_t q) {
    uint8_t marks[MOST];
    uint32_t lengths[MOST];
    const struct lawendeb_rotation rotation = {
        .scripts = {{axis, COUNT(axis)},
                    {focuser, COUNT(focuser)},
                    {dome, COUNT(dome)},
                    {guider, COUNT(guider)}},
        .count = SCRIPTS,
        .choices = choices,
        .choices_n = COUNT(choices),
        .q = q,
        .limit = LIMIT,
        .marks = marks,
        .marks_n = MOST,
        .lengths = lengths,
        .lengths_n = MOST};
    struct lawendeb_rehearsal r = lawendeb_rehearse_rotation(&rotation);
    printf("%4" PRIu32, q);
    if (r.number != LAWENDEB_ACCEPTED) {
        printf("  refused: number %" PRIu64 ", place %" PRIu64 "\n", r.number, r.place);
        return 1;
    }
    for (int i = 0; i < SCRIPTS; i++)
        printf("%9" PRIu64, r.waits[i]);
    printf("%9" PRIu32 "\n", (SCRIPTS - 1) * q);
    return 0;
}

int main(void) {
    puts("the longest wait of each script, in words of the others; none exceeds 3 q");
    puts("   q     axis  focuser     dome   guider      3 q");
    for (uint32_t q = 1; q <= 5; q++)
        if (rehearse(q))
            return 1;
    puts("a turn length out of range");
    return !rehearse(LAWENDEB_MOST_TURN + 1);
}
