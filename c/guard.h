/* Lists between pages that nobody may touch. It is included before any other header. */
#define _DEFAULT_SOURCE
#include <signal.h>
#include <stdint.h>
#include <stdlib.h>
#include <string.h>
#include <sys/mman.h>
#include <unistd.h>

/* A list of bytes on pages of which those around it are closed: its first places, so many, are closed too, then so many are open, and the last are closed. */
typedef struct { uint8_t *base, *list; size_t size; } guard_t;

static inline guard_t closed_list(const void *from, size_t before, size_t open, size_t after) {
    size_t page = (size_t)sysconf(_SC_PAGESIZE), head = (before + page - 1) / page, body = (open + page - 1) / page, tail = (after + page - 1) / page;
    guard_t g = {.size = (head + body + tail + 2) * page};
    g.base = mmap(NULL, g.size, PROT_NONE, MAP_PRIVATE | MAP_ANONYMOUS, -1, 0);
    if (g.base == MAP_FAILED) abort();
    uint8_t *start = g.base + (1 + head) * page;
    if (body && mprotect(start, body * page, PROT_READ | PROT_WRITE)) abort();
    /* the open places begin where a closed page ends; without closed ones before them they end where one begins */
    g.list = (before ? start : start + body * page - open) - before;
    if (open) memcpy(g.list + before, (const uint8_t *)from + before, open);
    return g;
}

/* a list whose end is the last place before a closed page */
static inline guard_t guard(const void *from, size_t bytes) { return closed_list(from, 0, bytes, 0); }

static inline void unguard(guard_t *g) { munmap(g->base, g->size); }

static inline void outside(int number) {
    static const char words[] = "a place was touched that is closed\n0 passed, 1 failed\n";
    (void)number;
    if (write(STDOUT_FILENO, words, sizeof words - 1) < 0) _exit(2);
    _exit(1);
}

/* from here on a test that touches a closed place says so and ends */
static inline void guard_all(void) {
    signal(SIGSEGV, outside);
    signal(SIGBUS, outside);
}
