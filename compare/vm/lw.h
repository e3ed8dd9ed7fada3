/* What the patched Lua holds for each activation and calls at each word. */
#ifndef LW_H
#define LW_H
#include <stdbool.h>
#include <stddef.h>
#include <stdint.h>
struct lw_function;
struct lw_activation {
    struct lw_function *function;
    struct { uint32_t begun, last, count, services, highest; } meter; /* as in include/lawendeb.h; the twin's has this layout */
    bool resumed; /* the word before was interrupted by a yield */
    bool off;     /* steps are checked, the meter is not */
    size_t last;
};
void lw_enter(struct lw_activation *a, const uint32_t *code, int n);
void lw_word(struct lw_activation *a, size_t pc);
#endif
