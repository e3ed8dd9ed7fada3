/* What the patched Lua holds for each activation, and calls at each word and at each access to a value. */
#ifndef OBSERVE_H
#define OBSERVE_H
#include <stdbool.h>
#include <stddef.h>
#include <stdint.h>
enum { OBSERVED_REGISTERS = 1024, OBSERVED_INDICES = 8 };
struct observed_function;
/* The accesses of the word that an activation is at. */
struct observed {
    struct observed_function *function;
    bool open;
    bool closing; /* what closing touches is left out */
    size_t word;
    const void *closure;
    /* where the registers stand in the stack: RETURN of a vararg function and a tail call move them before they are done */
    ptrdiff_t base;
    uint64_t reads[OBSERVED_REGISTERS / 64], writes[OBSERVED_REGISTERS / 64];
    unsigned constants_n, upvalues_n, upvalue_writes_n;
    uint32_t constants[OBSERVED_INDICES], upvalues[OBSERVED_INDICES], upvalue_writes[OBSERVED_INDICES];
};
struct lua_State;
struct CallInfo;
/* A call has taken this activation, of which an earlier one may be left. */
void observe_call(struct CallInfo *ci);
void observe_enter(struct CallInfo *ci);
void observe_word(struct lua_State *L, struct CallInfo *ci, size_t word);
void observe_thread(struct lua_State *L);
/* From here on results are moved for this activation's caller; none of them with a null pointer. */
void observe_results(struct CallInfo *ci);
/* Variables are closed for the activation's word, or no longer. */
int observe_closing(struct CallInfo *ci, bool closing);
/* A read by an activation that has given the word to its caller already. */
void observe_return(struct CallInfo *ci, const void *value);
void observe_read(const void *value);
void observe_write(const void *value);
#endif
