/* The C twin of definite assignment: what a C programmer writes, for the times, and held against the
   readings as the library is. */
#ifndef ASSIGNMENT_TWIN_H
#define ASSIGNMENT_TWIN_H
#include <stddef.h>
#include <stdint.h>

struct twin_answer {
    uint64_t number, place;
};

/* For each register that is read, one search over the steps, cut where the register is set. */
struct twin_answer twin_search(const uint32_t *words, size_t n, uint8_t parameters, uint8_t *marks, size_t marks_n);

/* 64 registers at a time: what may be unset at each word, until nothing is added. */
struct twin_answer twin_blocks(const uint32_t *words, size_t n, uint8_t parameters, uint8_t *marks, size_t marks_n);
#endif
