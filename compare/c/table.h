/* For each of the 128 opcode values: mode, step class, companion wanted, fallback rule. */
#ifndef TWIN_TABLE_H
#define TWIN_TABLE_H
#include <stdint.h>
enum mode { IABC, IABX, IASBX, IAX, ISJ, NO_MODE };
enum step { NEXT, STOP, ARITHMETIC, METAMETHOD, TEST, SKIP, EXTENDED, SETLIST, JUMP, LOOP, FORPREP, TFORPREP, TFORCALL, INVALID };
enum companion { ALONE, AFTER, BEFORE };
/* a fallback rule: 0 none, else the event + 1; BY_C: by field C */
enum { NONE = 0, BY_C = 255 };
#define EVENT(e) ((e) + 1)
enum { MODE, STEP, COMPANION, FALLBACK };
static const uint8_t table[128][4] = {
    [0] = {IABC, NEXT, ALONE, NONE},
    [1 ... 2] = {IASBX, NEXT, ALONE, NONE},
    [3] = {IABX, NEXT, ALONE, NONE},
    [4] = {IABX, EXTENDED, AFTER, NONE},
    [5] = {IABC, NEXT, ALONE, NONE},
    [6] = {IABC, SKIP, ALONE, NONE},
    [7 ... 10] = {IABC, NEXT, ALONE, NONE},
    [11 ... 14] = {IABC, NEXT, ALONE, EVENT(0)},
    [15 ... 18] = {IABC, NEXT, ALONE, EVENT(1)},
    [19] = {IABC, EXTENDED, ALONE, NONE},
    [20] = {IABC, NEXT, ALONE, EVENT(0)},
    [21 ... 45] = {IABC, ARITHMETIC, ALONE, NONE},
    [46 ... 48] = {IABC, METAMETHOD, BEFORE, BY_C},
    [49] = {IABC, NEXT, ALONE, EVENT(18)},
    [50] = {IABC, NEXT, ALONE, EVENT(19)},
    [51] = {IABC, NEXT, ALONE, NONE},
    [52] = {IABC, NEXT, ALONE, EVENT(4)},
    [53] = {IABC, NEXT, ALONE, EVENT(22)},
    [54] = {IABC, NEXT, ALONE, NONE},
    [55] = {IABC, NEXT, ALONE, EVENT(24)},
    [56] = {ISJ, JUMP, ALONE, NONE},
    [57 ... 67] = {IABC, TEST, ALONE, NONE},
    [68] = {IABC, NEXT, ALONE, EVENT(23)},
    [69] = {IABC, STOP, ALONE, EVENT(23)},
    [70 ... 72] = {IABC, STOP, ALONE, NONE},
    [73] = {IABX, LOOP, ALONE, NONE},
    [74] = {IABX, FORPREP, ALONE, NONE},
    [75] = {IABX, TFORPREP, ALONE, NONE},
    [76] = {IABC, TFORCALL, ALONE, NONE},
    [77] = {IABX, LOOP, ALONE, NONE},
    [78] = {IABC, SETLIST, ALONE, NONE},
    [79] = {IABX, NEXT, ALONE, NONE},
    [80 ... 81] = {IABC, NEXT, ALONE, NONE},
    [82] = {IAX, INVALID, BEFORE, NONE},
    [83 ... 127] = {NO_MODE, INVALID, ALONE, NONE},
};
#endif
