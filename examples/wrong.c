/* Wrong callers, WRONG of 1 to 5, that the header lets gcc tell of with -Wall: include/compiled
   compiles each with warnings as errors, and none may pass. With WRONG 0 it is right. */
#include "lawendeb.h"

enum { WORDS = 4 };

extern const uint32_t script[WORDS];
extern const uint8_t weights[LAWENDEB_WEIGHTS];
extern uint8_t marks[WORDS];
extern uint32_t lengths[WORDS];
extern struct lawendeb_meter meter;

struct lawendeb_run run(void);
struct lawendeb_answer feed(void);

struct lawendeb_run run(void) {
#if WRONG == 1 /* marks in the lengths' memory: the longest run would be too short, and accepted */
    return lawendeb_longest_run(script, WORDS, weights, LAWENDEB_WEIGHTS, (uint8_t *)lengths, WORDS,
                                lengths, WORDS);
#elif WRONG == 2 /* room for fewer words than is said */
    uint32_t few[WORDS - 1];
    return lawendeb_longest_run(script, WORDS, weights, LAWENDEB_WEIGHTS, marks, WORDS, few, WORDS);
#elif WRONG == 3 /* null, and words are said to be there */
    return lawendeb_longest_run(NULL, WORDS, weights, LAWENDEB_WEIGHTS, marks, WORDS, lengths,
                                WORDS);
#else
    return lawendeb_longest_run(script, WORDS, weights, LAWENDEB_WEIGHTS, marks, WORDS, lengths,
                                WORDS);
#endif
}

struct lawendeb_answer feed(void) {
#if WRONG == 4 /* no meter */
    return lawendeb_feed(script, WORDS, weights, LAWENDEB_WEIGHTS, NULL, 0);
#elif WRONG == 5 /* the meter within the words */
    return lawendeb_feed((const uint32_t *)&meter, WORDS, weights, LAWENDEB_WEIGHTS, &meter, 0);
#else
    return lawendeb_feed(script, WORDS, weights, LAWENDEB_WEIGHTS, &meter, 0);
#endif
}
