/* SPDX-License-Identifier: MIT OR Apache-2.0 (LICENSE-MIT, LICENSE-APACHE)

   Lawendeb for C from C99 on and C++ from C++11 on, on x86-64 Linux (System V calls). What the
   functions do is proved; what is asked of the caller stands here.

   Fourteen archives, to be linked alone or side by side. `include/archives [NAME..]` makes them in
   target/staticlib/, and `include/install PREFIX` puts them where pkg-config and CMake find them:
     libmeter.a       begin, feed and reset, for controllers
     libexports.a     fields, steps, the longest run, records
     libranges.a      the longest run by two tables
     libservice.a     nearest service, crossing steps
     libtouches.a     what a word reads and writes
     libassignment.a  registers set before use
     libbudget.a      begin, feed and reset of four scripts
     librehearsal.a   scripts in rotation
     libchunk.a       compiled scripts
     liblua53.a       scripts of Lua 5.3, for older controllers, but for the feeds
     libmeter53.a     the feed of such a script
     libbudget53.a    the feed of such a script as one of four
     libwitness.a     which words make the longest run, for both versions
     libindex.a       all functions of a compiled script, lines, heads
   What is not said to be for 5.3 is for scripts of Lua 5.4; the part about 5.3 says which to use.
   Those of meters and budgets, libtouches.a and libindex.a need no symbol, the others memset. They
   write nothing but what a call is lent: no heap, no static data, and as measured less than 1 kB of
   stack, but less than 2 kB for a rehearsal, less than 3 kB for a lift and for what a word touches,
   less than 16 kB for a pass over a chunk and for a call of libindex.a, which go down with its
   functions, 32 levels at most, and less than 300 kB for registers set before use, whose two tables
   of fixed size lie there: no call for a small stack (docs/BENCHMARKS.md). So every call is
   reentrant, and calls on different memory may run at once, in threads or interrupts. A begin, a
   feed, a reset and what a word touches take a bounded time, whatever the number of words; a run
   and a question about services take time in proportion to the words, registers set before use
   to the words times the registers that are read, a lift to words, constants and names, a
   rehearsal to the words of its scripts, its choices and the words that it runs, a pass to the
   chunk's bytes.

   Each slice passes as a pointer and a length, and nobody writes it meanwhile.
     - Null: a slice's pointer may be null if its length is 0, as an empty std::vector's data() is,
       and only then. A meter is never null.
     - Alignment: that of the type. Words, lengths and meters lie at multiples of 4 bytes, payloads,
       names and the numbers of records at multiples of 8; weights, marks, lists, tags, choices,
       string bytes and chunks lie anywhere. So the words within a chunk's bytes are no slice of
       words: lawendeb_chunk_fill copies them.
     - Apart: what is written, a slice or a meter, shares no byte with anything else that the call
       is lent. Marks within the lengths give a longest run that is too short, and no refusal.
   The compiler tells some of that where it sees it, with -Wall: what is written is `restrict`, what
   may not be null `nonnull`, and gcc is told each slice's length.
   Any contents are allowed: what does not fit is refused by a number, and nothing is taken on
   trust. */
#ifndef LAWENDEB_H
#define LAWENDEB_H

#include <stddef.h>
#include <stdint.h>

#ifdef __cplusplus
extern "C" {
#endif

/* C++ has no restrict; compilers have one of their own. */
#ifndef __cplusplus
#define LAWENDEB_APART restrict
#elif defined(__GNUC__)
#define LAWENDEB_APART __restrict__
#else
#define LAWENDEB_APART
#endif

/* Parameters by number: never null; a slice that is read, one that is written, and its length. */
#ifdef __has_attribute
#if __has_attribute(__nonnull__)
#define LAWENDEB_NONNULL(at) __attribute__((__nonnull__(at)))
#endif
#if __has_attribute(__access__)
#define LAWENDEB_READS(at, n) __attribute__((__access__(__read_only__, at, n)))
#define LAWENDEB_WRITES(at, n) __attribute__((__access__(__write_only__, at, n)))
#endif
#endif
#ifndef LAWENDEB_NONNULL
#define LAWENDEB_NONNULL(at)
#endif
#ifndef LAWENDEB_READS
#define LAWENDEB_READS(at, n)
#define LAWENDEB_WRITES(at, n)
#endif

/* Layouts are held against the archives' in a form that C99 takes, too. */
#define LAWENDEB_LAYOUT(what, holds) typedef char lawendeb_layout_of_##what[(holds) ? 1 : -1]

/* The release of this header: CHANGELOG.md says what each changed for a caller, and what to do. It
   rises when a function's parameters, a struct or a meaning changes. Where that changes what passes
   in a call, the function has a new symbol behind its name, so that an archive of another release
   does not link. */
#define LAWENDEB_RELEASE 5

/* Release 2: a call does not serve any more; only a step that does not go forward does.
   Release 3: a run and a feed are lent weights, and a feed's answer has a place.
   Release 4: a meter holds the highest count that it has shown, and can be reset.
   Release 5: no symbol changed. Names in C: struct lawendeb_steps is what lawendeb_successors
   answers, struct lawendeb_touched what lawendeb_touches does; four meters are an array `of`. */
#define lawendeb_begin lawendeb_begin_4
#define lawendeb_feed lawendeb_feed_4
#define lawendeb_longest_run lawendeb_longest_run_3

/* ---- answers, by the numbers of documents 01 and 02. The place is 0 unless one is named. */

#define LAWENDEB_ACCEPTED 0
#define LAWENDEB_TOO_MANY_WORDS 1    /* more than LAWENDEB_MOST_WORDS words */
#define LAWENDEB_CONSTANT_COUNT 2    /* tags and payloads differ in number, or are too many */
#define LAWENDEB_UNKNOWN_TAG 3       /* of a constant; place: the lowest such index */
#define LAWENDEB_STRING_PAST_BYTES 4 /* of a constant; place: the lowest such index */
#define LAWENDEB_NAMES 5             /* too many; or one ends past the bytes, place: the lowest */
#define LAWENDEB_SHORT_SLICE 6       /* a slice for results is too short */
#define LAWENDEB_NO_WORDS 7          /* there are none */
#define LAWENDEB_REACHES_INVALID 8   /* control can reach a bad word; place: the lowest such word */
#define LAWENDEB_NO_STEP 10          /* no step leads to the word fed, or the first is not 0 */
#define LAWENDEB_FOREIGN_METER 11    /* not of this function, or its highest below its count */
#define LAWENDEB_MALFORMED_LINE 12   /* of a sheet; by the program alone */
#define LAWENDEB_TOO_MANY_LINES 13   /* of a sheet; by the program alone */
#define LAWENDEB_HEADER_DIFFERS 14   /* a byte of a chunk's header */
#define LAWENDEB_MALFORMED_CHUNK 15  /* it ends early; a count or number is over its limit; .. */
#define LAWENDEB_TOO_DEEP 16         /* functions within functions, more than 32 levels */
#define LAWENDEB_UNSET_REGISTER 17   /* named as read, not set on some course; place: the lowest */
#define LAWENDEB_WEIGHTS_REFUSED 18  /* not 128 weights; or one is 0, place: the lowest such */
#define LAWENDEB_LOW_ABOVE_HIGH 19   /* a low weight above its high one; place: the opcode */
#define LAWENDEB_NO_SCRIPT 20        /* a script number above LAWENDEB_GUIDER */
#define LAWENDEB_BUDGET_RANGE 21     /* the budget is 0 or above LAWENDEB_MOST_BUDGET */
#define LAWENDEB_OVER_BUDGET 22      /* the sum of the four counts would be above the budget */
#define LAWENDEB_OUT_OF_RANGE 23     /* of a rehearsal: the count of scripts, q or a choice */

#define LAWENDEB_MOST_WORDS 32768
#define LAWENDEB_MOST_CONSTANTS 65536
#define LAWENDEB_MOST_NAMES 255
#define LAWENDEB_WEIGHTS 128
#define LAWENDEB_MOST_BUDGET 16777216
#define LAWENDEB_MOST_SCRIPTS 4
#define LAWENDEB_MOST_TURN 1000

struct lawendeb_answer {
    uint64_t number, place;
};

/* ---- weights: how long a word keeps the motors waiting, in a unit of the caller's

   A run and a feed are lent LAWENDEB_WEIGHTS weights of 1 to 255. A word weighs what stands at its
   low seven bits, weights[word & 127], whether its opcode is known or not. A meter's count, a run's
   lengths and its longest are sums of weights, at most 255 times 32,768. With all weights 1 they
   count words.

   On an accepted function, a meter that was begun and is lent the run's weights at each feed never
   shows a count above that run's longest. A meter fed with other weights than before is not refused
   for that. Its count is then still what the words since the last service weighed, each by the
   weights of its own feed, and nothing is lost or wraps; but it can't be held against the longest
   of a run with other weights. */

/* ---- the meter: libmeter.a */

/* One script's meter, held by the caller. Any five numbers are a meter. Zero a new one once: begin
   keeps the services and the highest, so that they go on from one start of the script to the next.
   A meter stored by a release before 4 must not be lent: it has four numbers, and what lies past
   them would be read as its highest, and written. Zero a new one, and copy the services alone. */
struct lawendeb_meter {
    uint32_t begun;    /* 0: not begun; any other number: begun */
    uint32_t last;     /* the last word number fed */
    uint32_t count;    /* weight of the words since service */
    uint32_t services; /* services passed; stays at 4,294,967,295 */
    uint32_t highest;  /* the highest count shown since the last reset */
};

LAWENDEB_LAYOUT(meter, sizeof(struct lawendeb_meter) == 20 &&
                           offsetof(struct lawendeb_meter, last) == 4 &&
                           offsetof(struct lawendeb_meter, count) == 8 &&
                           offsetof(struct lawendeb_meter, services) == 12 &&
                           offsetof(struct lawendeb_meter, highest) == 16);

/* A script of several functions. A feed takes one function's words, so each activation of a
   function has a meter of its own: begun when the function is entered, fed each of its words, and
   dropped when it returns; the caller's goes on at the word after. So with recursion there are as
   many meters of a function as it has activations, and a coroutine keeps its own. A call is no step
   of the caller: its meter is fed nothing meanwhile. A tail call takes its caller's place, and an
   error that is caught drops the meters of all that it leaves.
   No meter sees the services and the words of the others. Where the firmware serves whenever a Lua
   function is entered, also by a metamethod, from a C function or by a first resume, keep one
   number more, `left`: 0 at each service, an entry or a step that does not go forward, and grown by
   a meter's count when its activation leaves. What has run since the last service weighs at most
   `left` plus the count of the running meter, and that at most the sum of the longest runs of the
   activations on the way back: with calls nested d deep, d times the largest. The sum of the meters
   that are alive is no bound: a callee's share leaves with its meter. Where an entry does not
   serve, nothing bounds a script. (Coroutines: `left` plus the counts of all that are alive.)
   examples/stack.c is such a controller. */

/* The script starts anew: not begun, 0, 0; the services and the highest stay. Nobody else writes
   `m` meanwhile. */
void lawendeb_begin(struct lawendeb_meter *m) LAWENDEB_NONNULL(1);

/* The script goes to word `q` of its `n` words. The first word fed makes the count its own weight,
   and so does a step that serves with the word it leads to; another step adds that word's weight.
   The highest becomes the larger of itself and the new count. The answer is 0, or a refusal: 1, 18,
   11 and 10 are tried in this order, and leave the meter as it was. A begun meter is refused by 11
   if its last word is not below n, or its count is 0 or above 255 times (last + 1); one not begun
   if last or count is not 0; and either if the highest is below the count. `m` lies apart from
   words and weights, and nobody else writes it meanwhile. */
struct lawendeb_answer lawendeb_feed(const uint32_t *words, size_t n, const uint8_t *weights,
                                     size_t weights_n, struct lawendeb_meter *LAWENDEB_APART m,
                                     size_t q)
    LAWENDEB_READS(1, 2) LAWENDEB_READS(3, 4) LAWENDEB_NONNULL(5);

/* The highest becomes the count of this moment, on any meter, begun or not; nothing else changes.
   On an accepted function, a meter that was begun, then reset, and is then lent the run's weights
   at each feed, holds as highest the largest count that it showed since, which is never above that
   run's longest. Nobody else writes `m` meanwhile. */
void lawendeb_reset(struct lawendeb_meter *m) LAWENDEB_NONNULL(1);

/* ---- four scripts and one budget: libbudget.a */

/* The scripts, by number. */
#define LAWENDEB_AXIS 0
#define LAWENDEB_FOCUSER 1
#define LAWENDEB_DOME 2
#define LAWENDEB_GUIDER 3

/* A meter for each, by its number, held by the caller and lent together. Each counts its own
   services. Any twenty numbers are four meters. Zero new ones once. */
struct lawendeb_meters {
    struct lawendeb_meter of[4];
};

LAWENDEB_LAYOUT(meters, sizeof(struct lawendeb_meters) == 80 &&
                            offsetof(struct lawendeb_meters, of[LAWENDEB_AXIS]) == 0 &&
                            offsetof(struct lawendeb_meters, of[LAWENDEB_FOCUSER]) == 20 &&
                            offsetof(struct lawendeb_meters, of[LAWENDEB_DOME]) == 40 &&
                            offsetof(struct lawendeb_meters, of[LAWENDEB_GUIDER]) == 60);

/* The functions above, of one of the four. The answer is 0, or 20 for a script number above 3: all
   four meters are then as they were, and so they are on every refusal. `ms` lies apart from words
   and weights, and nobody else writes it meanwhile. */
struct lawendeb_answer lawendeb_begin_four(struct lawendeb_meters *ms, uint32_t script)
    LAWENDEB_NONNULL(1);
struct lawendeb_answer lawendeb_reset_four(struct lawendeb_meters *ms, uint32_t script)
    LAWENDEB_NONNULL(1);

/* The script goes to word `q` of its `n` words, within a budget of 1 to LAWENDEB_MOST_BUDGET on the
   sum of the four counts. Refusals are tried in this order: 20; 21; then 1, 18, 11 and 10 as at a
   feed of that script's meter alone, whatever the others hold; and 22 if the sum of its new count
   and the others' counts as they stand would be above the budget. A step that serves makes the new
   count small, and may be what is within it. The sum does not wrap.

   If all four scripts are accepted, the longest run of each is at most a quarter of the budget,
   rounded down, all four are begun before the first feed, and each is lent the words and weights of
   its run at every feed, then no feed with that budget is answered 22. */
struct lawendeb_answer lawendeb_feed_four(const uint32_t *words, size_t n, const uint8_t *weights,
                                          size_t weights_n,
                                          struct lawendeb_meters *LAWENDEB_APART ms,
                                          uint32_t script, uint32_t budget, size_t q)
    LAWENDEB_READS(1, 2) LAWENDEB_READS(3, 4) LAWENDEB_NONNULL(5);

/* ---- the fields of a word: libexports.a */

/* The mode of an opcode, as lopcodes.h has it: which of the fields it uses. */
#define LAWENDEB_MODE_NONE 0 /* of an unknown opcode */
#define LAWENDEB_MODE_ABC 1
#define LAWENDEB_MODE_ABX 2
#define LAWENDEB_MODE_ASBX 3
#define LAWENDEB_MODE_AX 4
#define LAWENDEB_MODE_SJ 5 /* Lua 5.4 alone */

/* Every field of a word, whatever its mode; those with an s in front are the signed ones. */
struct lawendeb_fields {
    uint32_t mode, opcode, a, k, b, c, bx, ax;
    int32_t sb, sc, sbx, sj;
};

struct lawendeb_fields lawendeb_decode(uint32_t word);

/* ---- steps and the longest run: libexports.a */

/* The steps of a word: how many by its kind, the lower first. Places that a kind lacks are 0. */
struct lawendeb_steps {
    uint64_t kind, first, second;
};

#define LAWENDEB_KIND_INVALID 0 /* a bad word, or no word: no steps */
#define LAWENDEB_KIND_STOP 1    /* a return: no steps */
#define LAWENDEB_KIND_ONE 2
#define LAWENDEB_KIND_TWO 3

struct lawendeb_steps lawendeb_successors(const uint32_t *words, size_t n, size_t p)
    LAWENDEB_READS(1, 2);

/* The longest run, which is the heaviest, and the lowest word at which it begins; or a refusal's
   number and place. It is of each function by itself; in a script whose calls nest d deep, up to d
   times as much may pass (see the meter). */
struct lawendeb_run {
    uint64_t number, place, longest, first;
};

/* Marks and lengths need n places at least. They get, for each word, 1 if it is reachable, else 0;
   and the most weight that passes from there without a service, its own included, 0 if it is not
   reachable. What lies past n stays as it was. Refusals are 1, 6, 18, 7 and 8, tried in this order.
   They alter nothing, but that 8 leaves the marks and n zero lengths. */
struct lawendeb_run lawendeb_longest_run(const uint32_t *words, size_t n, const uint8_t *weights,
                                         size_t weights_n, uint8_t *LAWENDEB_APART marks,
                                         size_t marks_n, uint32_t *LAWENDEB_APART lengths,
                                         size_t lengths_n)
    LAWENDEB_READS(1, 2) LAWENDEB_READS(3, 4) LAWENDEB_WRITES(5, 6) LAWENDEB_WRITES(7, 8);

/* ---- the longest run by two tables of weights: libranges.a */

/* The longest run by a table of low weights and by one of high weights, each with the lowest word
   at which it begins; or a refusal's number and place. */
struct lawendeb_run_range {
    uint64_t number, place, low_longest, low_first, high_longest, high_first;
};

/* Both runs in one call, with one search. Where 18 and 19 let the two tables through: by any table
   between them, entry by entry, the longest run is at least low_longest and at most high_longest,
   accepted exactly if these are and else refused alike; where it begins may be anywhere. Marks and
   lengths end as the run by the high table leaves them. Refusals are 1, 6, 18 of the low table, 18
   of the high one, 19, 7 and 8, tried in this order; 8 leaves the marks and n zero lengths, the
   others alter nothing. */
struct lawendeb_run_range lawendeb_longest_runs(const uint32_t *words, size_t n,
                                                const uint8_t *low, size_t low_n,
                                                const uint8_t *high, size_t high_n,
                                                uint8_t *LAWENDEB_APART marks, size_t marks_n,
                                                uint32_t *LAWENDEB_APART lengths, size_t lengths_n)
    LAWENDEB_READS(1, 2) LAWENDEB_READS(3, 4) LAWENDEB_READS(5, 6) LAWENDEB_WRITES(7, 8)
    LAWENDEB_WRITES(9, 10);

/* ---- nearest service and crossing steps: libservice.a

   Questions about a function, of which a run with all weights 1 decides whether it is accepted.
   Marks and lengths need n places at least, and get what that run leaves in them. Refusals are that
   run's: 1, 6, 7 and 8, tried in this order. */

/* The fewest words from word `w` on, itself counted, to a return or a word with a serving step: 1
   if it is one. found is 0, and fewest too, if the word is not reachable or past the end. */
struct lawendeb_nearest {
    uint64_t number, place, found, fewest;
};

struct lawendeb_nearest lawendeb_distance_to_service(const uint32_t *words, size_t n, size_t w,
                                                     uint8_t *LAWENDEB_APART marks, size_t marks_n,
                                                     uint32_t *LAWENDEB_APART lengths,
                                                     size_t lengths_n)
    LAWENDEB_READS(1, 2) LAWENDEB_WRITES(4, 5) LAWENDEB_WRITES(6, 7);

/* Lists the reachable words whose fewest is at most `d`: the list needs n places at least, too,
   and gets 1 for a listed word, else 0. What lies past n stays as it was, and all of it on a
   refusal. A list that is too short is refused by 6, which leaves marks and lengths as they
   were. */
struct lawendeb_answer lawendeb_list_within(const uint32_t *words, size_t n, size_t d,
                                            uint8_t *LAWENDEB_APART marks, size_t marks_n,
                                            uint32_t *LAWENDEB_APART lengths, size_t lengths_n,
                                            uint8_t *LAWENDEB_APART list, size_t list_n)
    LAWENDEB_READS(1, 2) LAWENDEB_WRITES(4, 5) LAWENDEB_WRITES(6, 7) LAWENDEB_WRITES(8, 9);

/* How many steps from reachable words pass strictly over word `w`, forward or back; 0 if it is past
   the end. */
struct lawendeb_crossed {
    uint64_t number, place, count;
};

struct lawendeb_crossed lawendeb_crossing_edges(const uint32_t *words, size_t n, size_t w,
                                                uint8_t *LAWENDEB_APART marks, size_t marks_n,
                                                uint32_t *LAWENDEB_APART lengths, size_t lengths_n)
    LAWENDEB_READS(1, 2) LAWENDEB_WRITES(4, 5) LAWENDEB_WRITES(6, 7);

/* ---- records: libexports.a */

/* A constant has a tag and a payload: the integer, the float's bits, or a string's place in the
   bytes, start in the low 32 bits, length in the high 32. Other payloads are ignored. An upvalue's
   name is such a place, or LAWENDEB_UNNAMED. */
#define LAWENDEB_TAG_NIL 0
#define LAWENDEB_TAG_FALSE 1
#define LAWENDEB_TAG_TRUE 17
#define LAWENDEB_TAG_INTEGER 3
#define LAWENDEB_TAG_FLOAT 19
#define LAWENDEB_TAG_SHORT_STRING 4
#define LAWENDEB_TAG_LONG_STRING 20
#define LAWENDEB_UNNAMED UINT64_MAX

/* Numbers in a record, and where each stands: include/RECORD.md says what they mean. A jump, a
   companion and a fallback are two numbers, whether there is one and which; an effect, an operand,
   a read and a write are four, a kind and three numbers. */
#define LAWENDEB_RECORD_NUMBERS 53
#define LAWENDEB_RECORD_PC 0
#define LAWENDEB_RECORD_RAW_WORD 1
#define LAWENDEB_RECORD_OPCODE 2
#define LAWENDEB_RECORD_CONFIDENCE 3
#define LAWENDEB_RECORD_JUMP 4
#define LAWENDEB_RECORD_COMPANION 6
#define LAWENDEB_RECORD_FALLBACK 8
#define LAWENDEB_RECORD_EFFECT 10
#define LAWENDEB_RECORD_OPERANDS 14                 /* how many, up to 4 */
#define LAWENDEB_RECORD_OPERAND(i) (15 + 4 * (i))   /* from 0 on */
#define LAWENDEB_RECORD_READS 31                    /* how many, up to 3 */
#define LAWENDEB_RECORD_READ(i) (32 + 4 * (i))
#define LAWENDEB_RECORD_WRITES 44                   /* how many, up to 2 */
#define LAWENDEB_RECORD_WRITE(i) (45 + 4 * (i))

/* The kinds. */
#define LAWENDEB_OPERAND_REGISTER 0
#define LAWENDEB_OPERAND_CONSTANT 1
#define LAWENDEB_OPERAND_UPVALUE 2
#define LAWENDEB_OPERAND_PROTOTYPE 3
#define LAWENDEB_OPERAND_IMMEDIATE_INT 4
#define LAWENDEB_OPERAND_IMMEDIATE_FLOAT 5
#define LAWENDEB_OPERAND_JUMP 6
#define LAWENDEB_OPERAND_COUNT 7
#define LAWENDEB_OPERAND_FLAG 8
#define LAWENDEB_OPERAND_EXTRA_ARG 9
#define LAWENDEB_TARGET_REGISTER 0 /* of a read or a write */
#define LAWENDEB_TARGET_REGISTER_RANGE 1
#define LAWENDEB_TARGET_REGISTER_RANGE_TO_TOP 2
#define LAWENDEB_TARGET_UPVALUE 3
#define LAWENDEB_TARGET_CONSTANT 4
#define LAWENDEB_TARGET_PROTOTYPE 5
#define LAWENDEB_TARGET_JUMP 6
#define LAWENDEB_EFFECT_NONE 0
#define LAWENDEB_EFFECT_CLOSE_UPVALUES 4
#define LAWENDEB_EFFECT_CONDITIONAL_SKIP 5
#define LAWENDEB_EFFECT_COMPANION_PAIR 7

/* Lifts a function: a record for each word, one after another in `numbers`, which has room for
   numbers_n / 53 of them. Refusals are 1 to 6, tried in this order; 6 says that there is room for
   fewer than n. What lies past the last record stays as it was, and all of it on a refusal. */
struct lawendeb_answer lawendeb_lift(const uint32_t *words, size_t n, const uint8_t *tags,
                                     size_t tags_n, const uint64_t *payloads, size_t payloads_n,
                                     const uint64_t *names, size_t names_n, const uint8_t *bytes,
                                     size_t bytes_n, uint64_t *LAWENDEB_APART numbers,
                                     size_t numbers_n)
    LAWENDEB_READS(1, 2) LAWENDEB_READS(3, 4) LAWENDEB_READS(5, 6) LAWENDEB_READS(7, 8)
    LAWENDEB_READS(9, 10) LAWENDEB_WRITES(11, 12);

/* ---- what a word touches: libtouches.a */

/* Registers from the first to the last, both touched. */
struct lawendeb_range {
    uint16_t first, last;
};

/* Ranges that rise, each as long as can be. Places past the count hold 0, here and below. */
struct lawendeb_ranges {
    struct lawendeb_range items[3];
    uint16_t count;
};

/* A range up to the stack top, by its first register past those touched at every top. The count is
   0 or 1. */
struct lawendeb_top {
    uint16_t first, count;
};

/* Constants or upvalues, rising without repeats. */
struct lawendeb_indices {
    uint32_t items[3];
    uint32_t count;
};

/* The registers, constants and upvalues that Lua's own VM (lvm.c, 5.4.8) reads and writes in some
   execution of a word; CALL, TAILCALL, TFORCALL and CONCAT by the formulas of lopcodes.h. What
   closing and VARARGPREP touch and CLOSURE captures is left out; an execution that ends in an error
   does not count. The reads and writes of a record are luad's, and differ. */
struct lawendeb_touched {
    struct lawendeb_ranges reads;
    struct lawendeb_top reads_to_top;
    struct lawendeb_indices constants, upvalues;
    struct lawendeb_ranges writes; /* on each step by some execution, not always: FORPREP's A+3 */
    struct lawendeb_top writes_to_top;
    struct lawendeb_indices upvalue_writes;
    struct lawendeb_ranges edge_writes; /* only on the way to word `edge`, one of the steps */
    size_t edge;                        /* 0 if nothing is written so */
};

LAWENDEB_LAYOUT(touched, sizeof(struct lawendeb_ranges) == 14 &&
                             sizeof(struct lawendeb_indices) == 16 &&
                             offsetof(struct lawendeb_touched, reads_to_top) == 14 &&
                             offsetof(struct lawendeb_touched, constants) == 20 &&
                             offsetof(struct lawendeb_touched, upvalues) == 36 &&
                             offsetof(struct lawendeb_touched, writes) == 52 &&
                             offsetof(struct lawendeb_touched, writes_to_top) == 66 &&
                             offsetof(struct lawendeb_touched, upvalue_writes) == 72 &&
                             offsetof(struct lawendeb_touched, edge_writes) == 88 &&
                             offsetof(struct lawendeb_touched, edge) == 104 &&
                             sizeof(struct lawendeb_touched) == 112);

/* What word p of the n words touches; a bad word, and a word number of n or more, nothing. */
struct lawendeb_touched lawendeb_touches(const uint32_t *words, size_t n, size_t p)
    LAWENDEB_READS(1, 2);

/* ---- registers set before use: libassignment.a */

/* Whether on every course that control can take from word 0 each register that a word names as
   read was a parameter, one of the first `parameters` registers, or was named as written earlier
   on that course: by what words touch. A write that is listed with a step counts on a course that
   takes that step, a word's own write not for its own read, a write up to the stack top not at
   all; a read up to the top needs its named registers alone. Refused: 1, 6, 7, 8, and 17 where
   some course breaks this, with the lowest word at which one does, in this order. `marks` gets,
   for each word, 1 if it is reachable and else 0, also at 8 and 17; at 1, 6 and 7 nothing is
   written, nor ever past n. */
struct lawendeb_answer lawendeb_definite_assignment(const uint32_t *words, size_t n,
                                                    uint8_t parameters,
                                                    uint8_t *LAWENDEB_APART marks, size_t marks_n)
    LAWENDEB_READS(1, 2) LAWENDEB_WRITES(4, 5);

/* ---- rehearsing scripts: librehearsal.a */

/* The longest wait of each script: the words that others ran between two of its turns, 0 if it had
   fewer than two. Or a refusal's number and place, and waits of 0. */
struct lawendeb_rehearsal {
    uint64_t number, place, waits[LAWENDEB_MOST_SCRIPTS];
};

/* Rehearses the first `count` scripts, 1 to 4, in rotation, the first given first, finished ones
   passed over. A turn ends after q words, 1 to 1,000, or just after a step that does not go forward
   or a return. At a word with two steps the next of the choices decides, 0 the lower, 1 the higher;
   without one the word has not run. It stops when all have returned, when a choice is missing, or
   when `limit` words have run. No wait is above (count - 1) * q.

   Scripts past `count` are not looked at, and may be null and 0. Marks and lengths need a place for
   each word of the longest script, and keep what the last run tried left.
   Refusals: 23, before anything is touched; then what lawendeb_longest_run gives, by weights of 1,
   for the lowest script that it refuses. None after that one is tried. */
struct lawendeb_rehearsal lawendeb_rehearse(const uint32_t *words0, size_t n0,
                                            const uint32_t *words1, size_t n1,
                                            const uint32_t *words2, size_t n2,
                                            const uint32_t *words3, size_t n3, size_t count,
                                            uint32_t q, const uint8_t *choices, size_t choices_n,
                                            uint32_t limit, uint8_t *LAWENDEB_APART marks,
                                            size_t marks_n, uint32_t *LAWENDEB_APART lengths,
                                            size_t lengths_n)
    LAWENDEB_READS(1, 2) LAWENDEB_READS(3, 4) LAWENDEB_READS(5, 6) LAWENDEB_READS(7, 8)
    LAWENDEB_READS(11, 12) LAWENDEB_WRITES(14, 15) LAWENDEB_WRITES(16, 17);

/* The same by a struct. What is zeroed is lent as null and 0. */
struct lawendeb_words {
    const uint32_t *at;
    size_t n;
};

struct lawendeb_rotation {
    struct lawendeb_words scripts[LAWENDEB_MOST_SCRIPTS];
    size_t count;
    const uint8_t *choices;
    size_t choices_n;
    uint32_t q, limit;
    uint8_t *marks;
    size_t marks_n;
    uint32_t *lengths;
    size_t lengths_n;
};

static inline LAWENDEB_NONNULL(1) struct lawendeb_rehearsal
lawendeb_rehearse_rotation(const struct lawendeb_rotation *r) {
    const struct lawendeb_words *s = r->scripts;
    return lawendeb_rehearse(s[0].at, s[0].n, s[1].at, s[1].n, s[2].at, s[2].n, s[3].at, s[3].n,
                             r->count, r->q, r->choices, r->choices_n, r->limit, r->marks,
                             r->marks_n, r->lengths, r->lengths_n);
}

/* ---- compiled scripts: libchunk.a

   A chunk is what `luac -o` writes, plain or stripped, for 4-byte words, 8-byte integers and 8-byte
   floats, little-endian. It is read as lundump.c of Lua 5.4.8 reads it. Functions count from 0 by
   their first byte, so that 0 is the main function and each comes before those within it. */

/* What both passes answer: how many words, constants and names function k has, a name for each
   upvalue. On a refusal the counts are 0. The chunk's length is tried first, then all of it is read
   in order, and what is met first is the answer: 14; 15 if the bytes end early, a function has over
   LAWENDEB_MOST_WORDS words, LAWENDEB_MOST_CONSTANTS constants or LAWENDEB_MOST_NAMES upvalues, a
   number passes lundump.c's limit, a constant string is absent, the chunk is longer than
   4,294,967,295 bytes, or, when all is read, there is no function k; 16 a level 33, main being 1;
   3 an unknown constant tag, with the constant's index. Bytes behind main are ignored. */
struct lawendeb_counts {
    uint64_t number, place, words, constants, names;
};

/* The first pass: fills nothing. */
struct lawendeb_counts lawendeb_chunk_count(const uint8_t *chunk, size_t n, size_t k)
    LAWENDEB_READS(1, 2);

/* The second pass: the words, the tags and payloads of the constants, and the names. A string's tag
   goes by its length, 4 up to 40 bytes and 20 above; the payload of nil, false and true is 0. The
   place of a string or a name is one in the chunk's bytes; a name that the chunk lacks is
   LAWENDEB_UNNAMED. Last of all is tried 6: a slice with fewer places than counted. What lies past
   the counts stays as it was, and all of it on a refusal. */
struct lawendeb_counts lawendeb_chunk_fill(const uint8_t *chunk, size_t n, size_t k,
                                           uint32_t *LAWENDEB_APART words, size_t words_n,
                                           uint8_t *LAWENDEB_APART tags, size_t tags_n,
                                           uint64_t *LAWENDEB_APART payloads, size_t payloads_n,
                                           uint64_t *LAWENDEB_APART names, size_t names_n)
    LAWENDEB_READS(1, 2) LAWENDEB_WRITES(4, 5) LAWENDEB_WRITES(6, 7) LAWENDEB_WRITES(8, 9)
    LAWENDEB_WRITES(10, 11);

/* The same by a struct. What is zeroed is lent as null and 0. */
struct lawendeb_room {
    uint32_t *words;
    size_t words_n;
    uint8_t *tags;
    size_t tags_n;
    uint64_t *payloads;
    size_t payloads_n;
    uint64_t *names;
    size_t names_n;
};

static inline LAWENDEB_READS(1, 2) LAWENDEB_NONNULL(4) struct lawendeb_counts
lawendeb_chunk_fill_room(const uint8_t *chunk, size_t n, size_t k, const struct lawendeb_room *r) {
    return lawendeb_chunk_fill(chunk, n, k, r->words, r->words_n, r->tags, r->tags_n, r->payloads,
                               r->payloads_n, r->names, r->names_n);
}

/* The name shown for an upvalue: `size` bytes from `start` on, of the chunk if in_chunk is 1, else
   of the list. With no name in either, and on a refusal, it is an empty part of the list. */
struct lawendeb_name {
    uint64_t number, place, in_chunk, start, size;
};

/* `own` are the places that lawendeb_chunk_fill gave, `other` those of a list of the caller's own,
   which serves where the chunk has no name; both by upvalue index, and one past the places has no
   name. Both are tried by 5, `own` against the chunk's bytes first, `other` against the list's. */
struct lawendeb_name lawendeb_upvalue_name(const uint8_t *chunk, size_t n, const uint64_t *own,
                                           size_t own_n, const uint8_t *list, size_t list_n,
                                           const uint64_t *other, size_t other_n, size_t index)
    LAWENDEB_READS(1, 2) LAWENDEB_READS(3, 4) LAWENDEB_READS(5, 6) LAWENDEB_READS(7, 8);

/* ---- scripts for older controllers: liblua53.a, its feeds in libmeter53.a and libbudget53.a

   A mount whose controller runs Lua 5.3 uses the functions that end in _53, every other mount those
   above. The words are those of Lua 5.3.6: opcodes 0 to 46, its own fields and its own steps. What
   is said above of a function holds of the one with _53 behind its name: answers, slices, refusals
   and their order, stack and time. Three things differ:
     - a word weighs what stands at its low six bits, weights[word & 63]. All LAWENDEB_WEIGHTS are
       looked at all the same: 0 at any of them is refused by 18, at 100 too;
     - a TAILCALL goes on at the next word, where a C function returns, so that it is bad as the
       last one. A RETURN alone has no step;
     - what a word touches is by lvm.c and lopcodes.h of 5.3.6. Registers go up to 511 where B or C
       names one, and further where a count does.

   Nothing in a word tells its version. Words of 5.4 given to a function of 5.3 are answered as
   words of 5.3, and the other way round: no number refuses them, and the answer is not one about
   that script. So the version is to be kept with the words.

   Meters have no version: begin and reset are the same functions, and a meter is fed by the
   functions of its script's version alone. Four scripts within one budget may be of both versions,
   each fed by its own. Records, registers set before use, rehearsals and compiled scripts are there
   for 5.4 alone; a chunk of 5.3 is refused by 14. */

struct lawendeb_fields_53 {
    uint32_t mode, opcode, a, b, c, bx, ax;
    int32_t sbx;
};

struct lawendeb_fields_53 lawendeb_decode_53(uint32_t word);

struct lawendeb_steps lawendeb_successors_53(const uint32_t *words, size_t n, size_t p)
    LAWENDEB_READS(1, 2);

struct lawendeb_run lawendeb_longest_run_53(const uint32_t *words, size_t n,
                                            const uint8_t *weights, size_t weights_n,
                                            uint8_t *LAWENDEB_APART marks, size_t marks_n,
                                            uint32_t *LAWENDEB_APART lengths, size_t lengths_n)
    LAWENDEB_READS(1, 2) LAWENDEB_READS(3, 4) LAWENDEB_WRITES(5, 6) LAWENDEB_WRITES(7, 8);

struct lawendeb_run_range lawendeb_longest_runs_53(const uint32_t *words, size_t n,
                                                   const uint8_t *low, size_t low_n,
                                                   const uint8_t *high, size_t high_n,
                                                   uint8_t *LAWENDEB_APART marks, size_t marks_n,
                                                   uint32_t *LAWENDEB_APART lengths,
                                                   size_t lengths_n)
    LAWENDEB_READS(1, 2) LAWENDEB_READS(3, 4) LAWENDEB_READS(5, 6) LAWENDEB_WRITES(7, 8)
    LAWENDEB_WRITES(9, 10);

struct lawendeb_answer lawendeb_feed_53(const uint32_t *words, size_t n, const uint8_t *weights,
                                        size_t weights_n, struct lawendeb_meter *LAWENDEB_APART m,
                                        size_t q)
    LAWENDEB_READS(1, 2) LAWENDEB_READS(3, 4) LAWENDEB_NONNULL(5);

struct lawendeb_answer lawendeb_feed_four_53(const uint32_t *words, size_t n,
                                             const uint8_t *weights, size_t weights_n,
                                             struct lawendeb_meters *LAWENDEB_APART ms,
                                             uint32_t script, uint32_t budget, size_t q)
    LAWENDEB_READS(1, 2) LAWENDEB_READS(3, 4) LAWENDEB_NONNULL(5);

struct lawendeb_nearest lawendeb_distance_to_service_53(const uint32_t *words, size_t n, size_t w,
                                                        uint8_t *LAWENDEB_APART marks,
                                                        size_t marks_n,
                                                        uint32_t *LAWENDEB_APART lengths,
                                                        size_t lengths_n)
    LAWENDEB_READS(1, 2) LAWENDEB_WRITES(4, 5) LAWENDEB_WRITES(6, 7);

struct lawendeb_answer lawendeb_list_within_53(const uint32_t *words, size_t n, size_t d,
                                               uint8_t *LAWENDEB_APART marks, size_t marks_n,
                                               uint32_t *LAWENDEB_APART lengths, size_t lengths_n,
                                               uint8_t *LAWENDEB_APART list, size_t list_n)
    LAWENDEB_READS(1, 2) LAWENDEB_WRITES(4, 5) LAWENDEB_WRITES(6, 7) LAWENDEB_WRITES(8, 9);

struct lawendeb_crossed lawendeb_crossing_edges_53(const uint32_t *words, size_t n, size_t w,
                                                   uint8_t *LAWENDEB_APART marks, size_t marks_n,
                                                   uint32_t *LAWENDEB_APART lengths,
                                                   size_t lengths_n)
    LAWENDEB_READS(1, 2) LAWENDEB_WRITES(4, 5) LAWENDEB_WRITES(6, 7);

struct lawendeb_touched lawendeb_touches_53(const uint32_t *words, size_t n, size_t p)
    LAWENDEB_READS(1, 2);

/* ---- the words of a longest run: libwitness.a */

/* The run's answer, and how many words its path has; 0 on a refusal. */
struct lawendeb_path {
    uint64_t number, place, longest, first, count;
};

/* lawendeb_longest_run, and into `path` the words of one longest stretch, `count` of them, from
   `first` on: after each word the one to which control can go on without a service and which has
   the greatest length, the lower of two that are equal; the last has none. Their weights make
   `longest`. After 1, and before the run's other checks, 6: a path with fewer places than there are
   words. What lies past the count stays as it was, and all of the path on a refusal. */
struct lawendeb_path lawendeb_longest_path(const uint32_t *words, size_t n, const uint8_t *weights,
                                           size_t weights_n, uint8_t *LAWENDEB_APART marks,
                                           size_t marks_n, uint32_t *LAWENDEB_APART lengths,
                                           size_t lengths_n, uint32_t *LAWENDEB_APART path,
                                           size_t path_n)
    LAWENDEB_READS(1, 2) LAWENDEB_READS(3, 4) LAWENDEB_WRITES(5, 6) LAWENDEB_WRITES(7, 8)
    LAWENDEB_WRITES(9, 10);

/* The same for words of Lua 5.3. */
struct lawendeb_path lawendeb_longest_path_53(const uint32_t *words, size_t n,
                                              const uint8_t *weights, size_t weights_n,
                                              uint8_t *LAWENDEB_APART marks, size_t marks_n,
                                              uint32_t *LAWENDEB_APART lengths, size_t lengths_n,
                                              uint32_t *LAWENDEB_APART path, size_t path_n)
    LAWENDEB_READS(1, 2) LAWENDEB_READS(3, 4) LAWENDEB_WRITES(5, 6) LAWENDEB_WRITES(7, 8)
    LAWENDEB_WRITES(9, 10);

/* ---- all functions of a compiled script, and a function by its place: libindex.a

   A chunk is refused as by libchunk.a. A function's place is where its first byte stands. Asked by
   number each call reads the whole chunk; asked by a place that lawendeb_chunk_index gave it reads
   that function alone, with those within it, and answers the same. Any place may be asked: what is
   no function there is refused, or answered as the bytes there read. */

/* How many functions; 0 on a refusal. */
struct lawendeb_listed {
    uint64_t number, place, functions;
};

struct lawendeb_listed lawendeb_chunk_functions(const uint8_t *chunk, size_t n)
    LAWENDEB_READS(1, 2);

/* The place of each function, by number, and the number of the one that it stands in, of main
   LAWENDEB_NO_FUNCTION. Last of all is tried 6: a slice shorter than the functions. What lies past
   them stays as it was, and all of it on a refusal. */
#define LAWENDEB_NO_FUNCTION UINT64_MAX
struct lawendeb_listed lawendeb_chunk_index(const uint8_t *chunk, size_t n,
                                            uint64_t *LAWENDEB_APART places, size_t places_n,
                                            uint64_t *LAWENDEB_APART parents, size_t parents_n)
    LAWENDEB_READS(1, 2) LAWENDEB_WRITES(3, 4) LAWENDEB_WRITES(5, 6);

/* Words alone, as lawendeb_chunk_fill gives them, by place. */
struct lawendeb_counts lawendeb_chunk_words_at(const uint8_t *chunk, size_t n, size_t at,
                                               uint32_t *LAWENDEB_APART words, size_t words_n)
    LAWENDEB_READS(1, 2) LAWENDEB_WRITES(4, 5);

/* The source line of each word, as luaG_getfuncline of ldebug.c gives it; 0 where the chunk has no
   debug information for the word. The counts are those of lawendeb_chunk_count; 6 is tried last. */
struct lawendeb_counts lawendeb_chunk_lines(const uint8_t *chunk, size_t n, size_t k,
                                            uint32_t *LAWENDEB_APART lines, size_t lines_n)
    LAWENDEB_READS(1, 2) LAWENDEB_WRITES(4, 5);
struct lawendeb_counts lawendeb_chunk_lines_at(const uint8_t *chunk, size_t n, size_t at,
                                               uint32_t *LAWENDEB_APART lines, size_t lines_n)
    LAWENDEB_READS(1, 2) LAWENDEB_WRITES(4, 5);

/* What a function begins with: the place of its source's name in the chunk's bytes, start in the
   low 32 bits and length in the high 32, LAWENDEB_UNNAMED where it has none of its own (luac
   writes it for main alone); its first and its last line; parameters, whether it is vararg, its
   registers. */
struct lawendeb_head {
    uint64_t number, place, source, linedefined, lastlinedefined;
    uint64_t numparams, is_vararg, maxstacksize;
};

struct lawendeb_head lawendeb_chunk_head(const uint8_t *chunk, size_t n, size_t k)
    LAWENDEB_READS(1, 2);
struct lawendeb_head lawendeb_chunk_head_at(const uint8_t *chunk, size_t n, size_t at)
    LAWENDEB_READS(1, 2);

#ifdef __cplusplus
}
#endif
#undef LAWENDEB_APART
#undef LAWENDEB_NONNULL
#undef LAWENDEB_READS
#undef LAWENDEB_WRITES
#undef LAWENDEB_LAYOUT

#endif
