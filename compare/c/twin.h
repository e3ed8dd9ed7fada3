/* The C twin: the same algorithms as the proved library, by hand, for gcc -O3. Speed is compared with it, and it is one
   more independent implementation of documents 01 and 02 in the differential tests. */
#ifndef TWIN_H
#define TWIN_H
#include <stdbool.h>
#include <stddef.h>
#include <stdint.h>

enum { TWIN_WORDS = 32768, TWIN_CONSTANTS = 65536, TWIN_NAMES = 255, TWIN_WEIGHTS = 128, TWIN_HEAVIEST = 255,
    TWIN_BUDGET = 16777216 };

/* kind: 0 invalid, 1 stop, 2 one, 3 two; steps lower first */
struct twin_successors { uint64_t kind, first, second; };
struct twin_run { uint64_t number, place, longest, first; };
struct twin_range { uint64_t number, place, low_longest, low_first, high_longest, high_first; };
struct twin_answer { uint64_t number, place; };
struct twin_nearest { uint64_t number, place, found, fewest; };
struct twin_crossed { uint64_t number, place, count; };
struct twin_meter { uint32_t begun, last, since, services, highest; };
struct twin_meters { struct twin_meter of[4]; };

/* include/RECORD.md */
struct twin_slot { uint64_t kind, numbers[3]; };
struct twin_record {
    uint64_t pc, raw_word, opcode, confidence, has_target, target, has_companion, companion, has_fallback, fallback;
    struct twin_slot effect;
    uint64_t operand_count;
    struct twin_slot operands[4];
    uint64_t read_count;
    struct twin_slot reads[3];
    uint64_t write_count;
    struct twin_slot writes[2];
};
_Static_assert(sizeof(struct twin_record) == 53 * 8, "53 numbers");

struct twin_successors twin_successors(const uint32_t *words, size_t n, size_t p);
struct twin_run twin_longest_run(const uint32_t *words, size_t n, const uint8_t *weights, size_t weights_n, uint8_t *marks,
    size_t marks_n, uint32_t *lengths, size_t lengths_n);
struct twin_range twin_longest_runs(const uint32_t *words, size_t n, const uint8_t *low, size_t low_n, const uint8_t *high,
    size_t high_n, uint8_t *marks, size_t marks_n, uint32_t *lengths, size_t lengths_n);
struct twin_nearest twin_distance_to_service(const uint32_t *words, size_t n, size_t w, uint8_t *marks, size_t marks_n,
    uint32_t *lengths, size_t lengths_n);
struct twin_answer twin_list_within(const uint32_t *words, size_t n, size_t d, uint8_t *marks, size_t marks_n,
    uint32_t *lengths, size_t lengths_n, uint8_t *list, size_t list_n);
struct twin_crossed twin_crossing_edges(const uint32_t *words, size_t n, size_t w, uint8_t *marks, size_t marks_n,
    uint32_t *lengths, size_t lengths_n);
void twin_begin(struct twin_meter *m);
void twin_reset(struct twin_meter *m);
struct twin_answer twin_feed(const uint32_t *words, size_t n, const uint8_t *weights, size_t weights_n, struct twin_meter *m,
    size_t q);
struct twin_answer twin_begin_four(struct twin_meters *ms, uint32_t script);
struct twin_answer twin_reset_four(struct twin_meters *ms, uint32_t script);
struct twin_answer twin_feed_four(const uint32_t *words, size_t n, const uint8_t *weights, size_t weights_n,
    struct twin_meters *ms, uint32_t script, uint32_t budget, size_t q);
struct twin_answer twin_feed_four_in_place(const uint32_t *words, size_t n, const uint8_t *weights, size_t weights_n,
    struct twin_meters *ms, uint32_t script, uint32_t budget, size_t q);
struct twin_answer twin_lift(const uint32_t *words, size_t n, const uint8_t *tags, size_t tags_n, const uint64_t *payloads,
    size_t payloads_n, const uint8_t *bytes, size_t bytes_n, const uint64_t *names, size_t names_n,
    struct twin_record *records, size_t records_n);
#endif
