/* The functions that an owner's tool is made of, held against Lua 5.4.8 itself. For each chunk given: how many
   functions it has, where each stands and in which one, against the Protos that lundump.c makes; each function's
   words, head and lines, by number and by place, against its Proto's code, fields and luaG_getfuncline; and the path
   of a longest run against the words' steps and the lengths. What the chunk's last byte is cut off of, and what has
   one byte changed, must not be answered otherwise by place than by number. Exit status 1 if anything differs.

   owner [-l] FILE..   -l: writes the line of every word instead, function after function, as `luac -l` has them */
#include <stdint.h>
#include <stdio.h>
#include <stdlib.h>
#include <string.h>
#include <time.h>

#include "lauxlib.h"
#include "ldebug.h"
#include "lobject.h"
#include "lstate.h"
#include "lua.h"

#include "lawendeb.h"

enum { WORDS = 32768, FUNCTIONS = 1 << 18, MARK = 0xababab };

static uint8_t *chunk;
static size_t size;
static const char *name;
static uint32_t words[WORDS + 1], lines[WORDS + 1], others[WORDS + 1], lengths[WORDS], path[WORDS + 1];
static uint8_t marks[WORDS], weights[128];
static uint64_t places[FUNCTIONS + 1], parents[FUNCTIONS + 1];
static unsigned long long functions, all_words, abs_lines, sources, paths, ties, damaged, over, wrong;
static size_t next;

static void bad(const char *what, size_t k) {
    if (wrong++ < 20)
        printf("%s: function %zu: %s\n", name, k, what);
}

static int is_step(const uint32_t *w, size_t n, uint32_t p, uint32_t q) {
    struct lawendeb_steps s = lawendeb_successors(w, n, p);
    return (s.kind >= 2 && s.first == q) || (s.kind == 3 && s.second == q);
}

/* The path: from the run's first word on, each word the step with the greatest length, the lower if equal. */
static void check_path(size_t k, size_t n) {
    for (size_t i = 0; i <= n; i++)
        path[i] = MARK;
    struct lawendeb_run run = lawendeb_longest_run(words, n, weights, 128, marks, n, lengths, n);
    struct lawendeb_path r = lawendeb_longest_path(words, n, weights, 128, marks, n, lengths, n, path, n);
    if (r.number != run.number || r.place != run.place || r.longest != run.longest || r.first != run.first)
        bad("not the run's answer", k);
    if (r.number) {
        if (r.count || path[0] != MARK)
            bad("a path of a refused run", k);
        return;
    }
    paths++;
    uint64_t sum = 0;
    if (r.count < 1 || r.count > n || path[0] != r.first)
        bad("the path's start", k);
    for (size_t i = 0; i < r.count && i < n; i++) {
        uint32_t p = path[i];
        struct lawendeb_steps s = lawendeb_successors(words, n, p);
        uint64_t to[2] = {s.first, s.second}, best = 0, found = 0, at = 0;
        for (size_t j = 0; j + 2 <= s.kind && j < 2; j++)
            if (to[j] > p && (!found || lengths[to[j]] > best)) {
                best = lengths[to[j]];
                at = to[j];
                found = 1;
            } else if (to[j] > p && lengths[to[j]] == best)
                ties++;
        sum += weights[words[p] & 127];
        if (lengths[p] != weights[words[p] & 127] + best)
            bad("a length", k);
        if (i + 1 < r.count ? !found || path[i + 1] != at || !is_step(words, n, p, path[i + 1]) : found != 0)
            bad("a step of the path", k);
    }
    if (sum != r.longest)
        bad("the path's weight", k);
    for (size_t i = r.count; i <= n; i++)
        if (path[i] != MARK)
            bad("past the path", k);
}

static int same_head(struct lawendeb_head a, struct lawendeb_head b) {
    return a.number == b.number && a.place == b.place && a.source == b.source && a.linedefined == b.linedefined &&
           a.lastlinedefined == b.lastlinedefined && a.numparams == b.numparams && a.is_vararg == b.is_vararg &&
           a.maxstacksize == b.maxstacksize;
}

static void check_head(const Proto *p, size_t k, int by_number) {
    struct lawendeb_head h = lawendeb_chunk_head_at(chunk, size, places[k]);
    if (by_number && !same_head(h, lawendeb_chunk_head(chunk, size, k)))
        bad("the head by number", k);
    if (h.number || h.linedefined != (uint64_t)p->linedefined || h.lastlinedefined != (uint64_t)p->lastlinedefined ||
        h.numparams != p->numparams || h.is_vararg != p->is_vararg || h.maxstacksize != p->maxstacksize)
        bad("the head", k);
    if (h.source != UINT64_MAX) {
        size_t start = h.source & 0xffffffff, n = h.source >> 32;
        sources++;
        if (n != tsslen(p->source) || memcmp(chunk + start, getstr(p->source), n))
            bad("the source", k);
    }
}

/* Function k and those within it; `by_number` asks by number, too, which reads the whole chunk each time. */
static void one(const Proto *p, uint64_t parent, int by_number) {
    size_t k = next++, n = p->sizecode;
    if (parents[k] != parent)
        bad("the function that it stands in", k);
    if (k && places[k] <= places[k - 1])
        bad("its place", k);
    functions++;
    for (size_t i = 0; i <= WORDS; i++)
        lines[i] = words[i] = MARK;
    struct lawendeb_counts c = lawendeb_chunk_words_at(chunk, size, places[k], words, WORDS);
    struct lawendeb_counts d = lawendeb_chunk_lines_at(chunk, size, places[k], lines, WORDS);
    if (c.number || d.number || c.words != n || d.words != n)
        bad("counts", k);
    else {
        if (memcmp(words, p->code, 4 * n) || words[n] != MARK)
            bad("words", k);
        for (size_t pc = 0; pc < n; pc++) {
            int line = luaG_getfuncline(p, (int)pc);
            if (lines[pc] != (uint32_t)(line < 0 ? 0 : line))
                bad("a line", k);
        }
        if (lines[n] != MARK)
            bad("past the lines", k);
        if (by_number) {
            c = lawendeb_chunk_lines(chunk, size, k, others, WORDS);
            if (c.number || memcmp(lines, others, 4 * n))
                bad("lines by number", k);
            if (n) {
                c = lawendeb_chunk_lines_at(chunk, size, places[k], others, n - 1);
                if (c.number != LAWENDEB_SHORT_SLICE || c.words)
                    bad("6", k);
            }
        }
        all_words += n;
        abs_lines += p->sizeabslineinfo;
        check_head(p, k, by_number);
        check_path(k, n);
    }
    for (int i = 0; i < p->sizep; i++)
        one(p->p[i], k, by_number);
}

/* Whether a function has more words or constants than document 01 allows, which Lua does. */
static int is_over(const Proto *p) {
    if (p->sizecode > LAWENDEB_MOST_WORDS || p->sizek > LAWENDEB_MOST_CONSTANTS)
        return 1;
    for (int i = 0; i < p->sizep; i++)
        if (is_over(p->p[i]))
            return 1;
    return 0;
}

/* A damaged chunk: what is listed of it is what is chosen by number. */
static void check_damaged(void) {
    struct lawendeb_listed l = lawendeb_chunk_index(chunk, size, places, FUNCTIONS, parents, FUNCTIONS);
    struct lawendeb_counts c = lawendeb_chunk_count(chunk, size, 0);
    damaged++;
    if (l.number != c.number || l.place != c.place || (l.number ? l.functions != 0 : l.functions == 0))
        bad("refused otherwise", 0);
    if (l.number)
        return;
    if (lawendeb_chunk_count(chunk, size, l.functions).number != LAWENDEB_MALFORMED_CHUNK)
        bad("one more function", l.functions);
    for (size_t k = 0; k < l.functions; k += 1 + l.functions / 3) {
        c = lawendeb_chunk_lines(chunk, size, k, lines, WORDS);
        struct lawendeb_counts d = lawendeb_chunk_lines_at(chunk, size, places[k], others, WORDS);
        if (memcmp(&c, &d, sizeof c) || memcmp(lines, others, 4 * c.words))
            bad("lines of a damaged function", k);
        if (!same_head(lawendeb_chunk_head(chunk, size, k), lawendeb_chunk_head_at(chunk, size, places[k])))
            bad("the head of a damaged function", k);
    }
}

static void read_file(void) {
    FILE *f = fopen(name, "rb");
    if (!f || fseek(f, 0, SEEK_END))
        exit(2);
    size = (size_t)ftell(f);
    rewind(f);
    chunk = (uint8_t *)malloc(size + 1);
    if (!chunk || fread(chunk, 1, size, f) != size)
        exit(2);
    fclose(f);
}

int main(int argc, char **argv) {
    int list = argc > 1 && !strcmp(argv[1], "-l");
    lua_State *L = luaL_newstate();
    double by_place = 0, largest = 0;
    unsigned long long largest_functions = 0, seed = 1;
    for (int i = 0; i < 128; i++)
        weights[i] = (uint8_t)(1 + i * 37 % 255);
    for (int a = 1 + list; a < argc; a++) {
        name = argv[a];
        read_file();
        struct lawendeb_listed count = lawendeb_chunk_functions(chunk, size);
        memset(places, 0xab, sizeof places);
        clock_t began = clock();
        struct lawendeb_listed l = lawendeb_chunk_index(chunk, size, places, FUNCTIONS, parents, FUNCTIONS);
        for (size_t k = 0; k < l.functions; k++) {
            lawendeb_chunk_words_at(chunk, size, places[k], words, WORDS);
            struct lawendeb_counts c = lawendeb_chunk_lines_at(chunk, size, places[k], lines, WORDS);
            lawendeb_chunk_head_at(chunk, size, places[k]);
            for (size_t i = 0; list && i < c.words; i++)
                printf("%u\n", lines[i]);
        }
        double took = (double)(clock() - began) / CLOCKS_PER_SEC;
        by_place += took;
        if (took > largest) {
            largest = took;
            largest_functions = l.functions;
        }
        if (!list && luaL_loadbufferx(L, (char *)chunk, size, "x", "b") == LUA_OK) {
            const Proto *main_function = ((const LClosure *)lua_topointer(L, -1))->p;
            next = 0;
            if (is_over(main_function)) {
                over++;
                printf("over the limits: %s\n", name);
                if (l.number != LAWENDEB_MALFORMED_CHUNK || memcmp(&count, &l, sizeof l))
                    bad("not refused by 15", 0);
            } else if (l.number || memcmp(&count, &l, sizeof l))
                bad("refused, or counted otherwise", 0);
            else {
                struct lawendeb_listed s =
                    lawendeb_chunk_index(chunk, size, places, l.functions, parents, l.functions - 1);
                if (s.number != LAWENDEB_SHORT_SLICE || s.functions)
                    bad("6 of the list", 0);
                one(main_function, UINT64_MAX, l.functions < 400);
                if (next != l.functions || places[next] != UINT64_C(0xabababababababab))
                    bad("how many functions", next);
            }
            for (int i = 0; i < 8; i++) {
                seed = seed * 6364136223846793005u + 1442695040888963407u;
                size_t at = (size_t)(seed >> 33) % size, whole = size;
                uint8_t was = chunk[at];
                if (i % 2)
                    chunk[at] = (uint8_t)(seed >> 20);
                else
                    size = at;
                check_damaged();
                size = whole;
                chunk[at] = was;
            }
        } else if (!list)
            printf("%s: Lua refuses it\n", name);
        lua_settop(L, 0);
        free(chunk);
    }
    if (list)
        return 0;
    printf("%d chunks, of which %llu are over the limits; %llu functions, %llu words, %llu absolute lines, %llu sources; %llu paths, %llu ties; "
           "%llu damaged chunks; %llu differences\n",
           argc - 1, over, functions, all_words, abs_lines, sources, paths, ties, damaged, wrong);
    printf("index, words, lines and heads of all by place: %.3f s; of the slowest chunk, %llu functions: %.3f s\n",
           by_place, largest_functions, largest);
    return wrong != 0;
}
