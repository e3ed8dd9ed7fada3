/* One side of the comparison behind a pipe: the proved library, or with -DTWIN=name a function of the C twin. Reads
   cases: n, parameters, length of the marks and a first byte as 32-bit numbers, then n words. Writes for each the
   number and the place, 64 bits each, and the marks. The marks hold bytes that rise by 7 before the call. Words and
   marks end where a page begins that may not be touched, so that a look past them stops the program; so does an altered
   word, or an altered byte before the marks. */
#include "lawendeb.h"
#include <stdio.h>
#include <stdlib.h>
#include <string.h>
#include <sys/mman.h>
#include <unistd.h>

#ifdef TWIN
#include "twin.h"
#define answer twin_answer
#define ask TWIN
#else
#define answer lawendeb_answer
#define ask lawendeb_definite_assignment
#endif

enum { ROOM = 1 << 18, BEFORE = 64 };

/* The end of ROOM bytes before a page that may not be touched. */
static unsigned char *fenced(void) {
    size_t page = (size_t)sysconf(_SC_PAGESIZE);
    unsigned char *start = mmap(NULL, ROOM + page, PROT_READ | PROT_WRITE, MAP_PRIVATE | MAP_ANONYMOUS, -1, 0);
    if (start == MAP_FAILED || mprotect(start + ROOM, page, PROT_NONE)) {
        perror("side");
        exit(2);
    }
    return start + ROOM;
}

static void stop(const char *what, uint64_t which) {
    fprintf(stderr, "side: case %llu: %s\n", (unsigned long long)which, what);
    exit(3);
}

int main(void) {
    static uint32_t kept[ROOM / 4];
    unsigned char *words_end = fenced(), *marks_end = fenced();
    uint32_t head[4];
    for (uint64_t which = 0; fread(head, 4, 4, stdin) == 4; which++) {
        size_t n = head[0], length = head[2];
        if (n > ROOM / 4 || length > ROOM - BEFORE) stop("too large", which);
        uint32_t *words = (uint32_t *)(void *)words_end - n;
        uint8_t *marks = marks_end - length;
        if (fread(kept, 4, n, stdin) != n) stop("ends early", which);
        memcpy(words, kept, 4 * n);
        memset(marks - BEFORE, 0xA5, BEFORE);
        for (size_t i = 0; i < length; i++)
            marks[i] = (uint8_t)(head[3] + 7 * i);
        struct answer got = ask(words, n, (uint8_t)head[1], marks, length);
        if (memcmp(words, kept, 4 * n)) stop("a word was altered", which);
        for (size_t i = 1; i <= BEFORE; i++)
            if (marks[-(ptrdiff_t)i] != 0xA5) stop("a byte before the marks was altered", which);
        fwrite(&got.number, 8, 1, stdout);
        fwrite(&got.place, 8, 1, stdout);
        fwrite(marks, 1, length, stdout);
    }
    return 0;
}
