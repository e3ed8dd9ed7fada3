/* times REAL: nanoseconds a word for what it touches, of functions of 64, 1,024 and 32,768 words put
   together from the real ones of REAL (words/real.txt). Best of 20 rounds. */
#include "lawendeb.h"
#include <stdio.h>
#include <stdlib.h>
#include <string.h>
#include <time.h>

enum { MOST = LAWENDEB_MOST_WORDS };

static uint32_t words[MOST];

/* As many real words as there is room for, over again from the first when they end. */
static size_t fill(const char *path) {
    static char line[1 << 20];
    FILE *in = fopen(path, "r");
    size_t n = 0, real;
    if (!in)
        return 0;
    while (n < MOST && fgets(line, sizeof line, in))
        if (line[0] == 'w')
            for (char *word = strtok(line + 1, " \n"); word && n < MOST; word = strtok(NULL, " \n"))
                words[n++] = (uint32_t)strtoul(word, NULL, 10);
    fclose(in);
    real = n;
    for (; real && n < MOST; n++)
        words[n] = words[n - real];
    return n;
}

static double now(void) {
    struct timespec t;
    clock_gettime(CLOCK_MONOTONIC, &t);
    return 1e9 * (double)t.tv_sec + (double)t.tv_nsec;
}

int main(int count, char **arguments) {
    static const size_t sizes[3] = {64, 1024, MOST};
    volatile uint64_t sum = 0;
    if (count != 2 || fill(arguments[1]) != MOST)
        return 1;
    for (int i = 0; i < 3; i++) {
        size_t n = sizes[i], repeat = MOST / n;
        double best = 1e18;
        for (int round = 0; round < 20; round++) {
            double start = now();
            for (size_t again = 0; again < repeat; again++)
                for (size_t p = 0; p < n; p++)
                    sum += lawendeb_touches(words, n, p).reads.count;
            double each = (now() - start) / (double)(repeat * n);
            if (each < best)
                best = each;
        }
        printf("%zu words: %.1f ns a word\n", n, best);
    }
    return 0;
}
