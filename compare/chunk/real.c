/* Lua's own loader: lua_load of a binary chunk, and what it made of each function, in the order of first bytes, as plain bytes. */
#include <stdint.h>
#include <stdlib.h>
#include <string.h>

#include "lua.h"
#include "lauxlib.h"
#include "lobject.h"
#include "lstate.h"
#include "lstring.h"
#include "lundump.h"

struct buffer {
    uint8_t *bytes;
    size_t size, room;
};

static void put(struct buffer *b, const void *from, size_t n) {
    if (b->room - b->size < n) {
        b->room = 2 * (b->room + n);
        b->bytes = realloc(b->bytes, b->room);
    }
    memcpy(b->bytes + b->size, from, n);
    b->size += n;
}

static void put_u32(struct buffer *b, uint32_t v) { put(b, &v, 4); }

static void put_string(struct buffer *b, TString *s) {
    put_u32(b, (uint32_t)tsslen(s));
    put(b, getstr(s), tsslen(s));
}

static void put_constant(struct buffer *b, const TValue *o) {
    uint8_t tag = (uint8_t)ttypetag(o);
    put(b, &tag, 1);
    if (tag == LUA_VNUMINT || tag == LUA_VNUMFLT)
        put(b, &o->value_, 8);
    else if (tag == LUA_VSHRSTR || tag == LUA_VLNGSTR)
        put_string(b, tsvalue(o));
}

static void put_function(struct buffer *b, const Proto *f) {
    put_u32(b, (uint32_t)f->sizecode);
    put(b, f->code, 4 * (size_t)f->sizecode);
    put_u32(b, (uint32_t)f->sizek);
    for (int i = 0; i < f->sizek; i++)
        put_constant(b, &f->k[i]);
    put_u32(b, (uint32_t)f->sizeupvalues);
    for (int i = 0; i < f->sizeupvalues; i++) {
        uint8_t named = f->upvalues[i].name != NULL;
        put(b, &named, 1);
        if (named)
            put_string(b, f->upvalues[i].name);
    }
    for (int i = 0; i < f->sizep; i++)
        put_function(b, f->p[i]);
}

/* A count that the bytes cannot hold is refused for want of memory before the bytes are missed. */
struct limit {
    size_t used, most;
};

static void *allocate(void *ud, void *p, size_t old, size_t size) {
    struct limit *l = ud;
    size_t before = p == NULL ? 0 : old;
    if (size == 0) {
        l->used -= before;
        free(p);
        return NULL;
    }
    if (l->most < l->used - before + size)
        return NULL;
    void *q = realloc(p, size);
    if (q != NULL)
        l->used += size - before;
    return q;
}

/* 0 if the chunk is loaded: then *out is what it holds, to be freed. */
int real_load(const uint8_t *bytes, size_t n, uint8_t **out, size_t *size) {
    struct limit limit = {0, 1000000 + 64 * n};
    lua_State *L = lua_newstate(allocate, &limit);
    int status = luaL_loadbufferx(L, (const char *)bytes, n, "=c", "b");
    if (status == LUA_OK) {
        struct buffer b = {NULL, 0, 0};
        put_function(&b, clLvalue(s2v(L->top.p - 1))->p);
        *out = b.bytes;
        *size = b.size;
    }
    lua_close(L);
    return status;
}

void real_free(uint8_t *p) { free(p); }

/* For the benchmark: loads into one state, again and again. */
lua_State *real_open(void) { return luaL_newstate(); }

int real_again(lua_State *L, const uint8_t *bytes, size_t n) {
    int status = luaL_loadbufferx(L, (const char *)bytes, n, "=c", "b");
    lua_settop(L, 0);
    return status;
}

void real_close(lua_State *L) { lua_close(L); }

/* A script as luac compiles it; 0 if that fails. */
static int append(lua_State *L, const void *p, size_t n, void *ud) {
    (void)L;
    put(ud, p, n);
    return 0;
}

int real_compile(const uint8_t *text, size_t n, int strip, uint8_t **out, size_t *size) {
    lua_State *L = luaL_newstate();
    struct buffer b = {NULL, 0, 0};
    int ok = luaL_loadbufferx(L, (const char *)text, n, "@script.lua", "t") == LUA_OK && lua_dump(L, append, &b, strip) == 0;
    *out = b.bytes;
    *size = b.size;
    lua_close(L);
    return ok;
}
