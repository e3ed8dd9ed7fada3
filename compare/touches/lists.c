/* The proved lists for a program that compares: reads functions, each a count and its words as 32-bit
   numbers, and writes for each word, and for one word number past the end, the 38 numbers of the
   answer. */
#include "lawendeb.h"
#include <stdio.h>
#include <stdlib.h>
#ifndef TOUCHES
#define TOUCHES lawendeb_touches /* or another version's */
#endif

static uint32_t *put_ranges(uint32_t *out, const struct lawendeb_ranges *r) {
    for (int i = 0; i < 3; i++) {
        *out++ = r->items[i].first;
        *out++ = r->items[i].last;
    }
    *out++ = r->count;
    return out;
}

static uint32_t *put_top(uint32_t *out, const struct lawendeb_top *t) {
    *out++ = t->first;
    *out++ = t->count;
    return out;
}

static uint32_t *put_indices(uint32_t *out, const struct lawendeb_indices *r) {
    for (int i = 0; i < 3; i++)
        *out++ = r->items[i];
    *out++ = r->count;
    return out;
}

static void put(const struct lawendeb_touched *t) {
    uint32_t numbers[38], *out = numbers;
    out = put_ranges(out, &t->reads);
    out = put_top(out, &t->reads_to_top);
    out = put_indices(out, &t->constants);
    out = put_indices(out, &t->upvalues);
    out = put_ranges(out, &t->writes);
    out = put_top(out, &t->writes_to_top);
    out = put_indices(out, &t->upvalue_writes);
    out = put_ranges(out, &t->edge_writes);
    *out++ = (uint32_t)t->edge;
    fwrite(numbers, 4, 38, stdout);
}

int main(void) {
    uint32_t n;
    while (fread(&n, 4, 1, stdin) == 1) {
        uint32_t *words = malloc(4 * (size_t)n + 4);
        if (fread(words, 4, n, stdin) != n)
            return 1;
        for (size_t p = 0; p <= n; p++) {
            struct lawendeb_touched t = TOUCHES(words, n, p);
            put(&t);
        }
        free(words);
    }
    return 0;
}
