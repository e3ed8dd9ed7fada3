/* What the patched Lua calls: at each entry of a Lua function, at each word, and at each return. */
#ifndef COUNT_H
#define COUNT_H
#include <stddef.h>
struct lua_State;
struct CallInfo;
struct Proto;
void count_enter(struct lua_State *L, struct CallInfo *ci, const struct Proto *p);
void count_word(struct lua_State *L, struct CallInfo *ci, size_t q);
void count_leave(struct lua_State *L, struct CallInfo *ci);
void count_free(struct lua_State *L);
#endif
