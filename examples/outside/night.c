/* A program outside the tree, in C, from the installed files alone: of each function of a compiled
   script the longest run, and the word at which it starts. */
#include <inttypes.h>
#include <lawendeb.h>
#include <stdio.h>
#include <stdlib.h>
#include <string.h>

enum { MOST_BYTES = 65536 };

static uint8_t chunk[MOST_BYTES];
static uint8_t weights[LAWENDEB_WEIGHTS];

/* 0 when there is no function k. */
static int show(size_t n, size_t k) {
    struct lawendeb_counts c = lawendeb_chunk_count(chunk, n, k);
    struct lawendeb_room room;
    struct lawendeb_run run;
    uint8_t *marks;
    uint32_t *lengths;
    if (c.number != LAWENDEB_ACCEPTED)
        return 0;
    /* What the function has none of is lent as null, if malloc gives it for 0 bytes. */
    room.words_n = c.words, room.tags_n = room.payloads_n = c.constants, room.names_n = c.names;
    room.words = (uint32_t *)malloc(room.words_n * sizeof *room.words);
    room.tags = (uint8_t *)malloc(room.tags_n);
    room.payloads = (uint64_t *)malloc(room.payloads_n * sizeof *room.payloads);
    room.names = (uint64_t *)malloc(room.names_n * sizeof *room.names);
    marks = (uint8_t *)malloc(c.words);
    lengths = (uint32_t *)malloc(c.words * sizeof *lengths);
    c = lawendeb_chunk_fill_room(chunk, n, k, &room);
    run = lawendeb_longest_run(room.words, c.words, weights, LAWENDEB_WEIGHTS, marks, c.words,
                               lengths, c.words);
    printf("%zu: %" PRIu64 " words, number %" PRIu64 ", longest %" PRIu64 " from word %" PRIu64
           "\n",
           k, c.words, run.number, run.longest, run.first);
    free(room.words), free(room.tags), free(room.payloads), free(room.names);
    free(marks), free(lengths);
    return 1;
}

int main(int count, char **arguments) {
    FILE *file = count == 2 ? fopen(arguments[1], "rb") : NULL;
    size_t n, k = 0;
    if (!file)
        return 2;
    n = fread(chunk, 1, MOST_BYTES, file);
    fclose(file);
    memset(weights, 1, sizeof weights);
    while (show(n, k))
        k++;
    return k == 0;
}
