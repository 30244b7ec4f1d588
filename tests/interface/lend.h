/* Memory to lend: between pages that may not be touched, flush with one of them; the bytes beside it hold a pattern. */
#ifndef LEND_H
#define LEND_H

#include <stdint.h>
#include <stdio.h>
#include <stdlib.h>
#include <string.h>
#include <sys/mman.h>

enum { PAGE = 4096, PATTERN = 0x5A };
enum { AT_START, AT_END };

static int checks, failures;

/* One more check; a failed one is printed. */
#define CHECK(condition) check((condition), #condition, __FILE__, __LINE__)
static inline void check(int holds, const char *text, const char *file, int line) {
    checks++;
    if (holds) return;
    if (failures++ < 20) printf("%s:%d: %s\n", file, line, text);
}

typedef struct {
    uint8_t *bytes, *room;
    size_t length, room_length;
} lent;

static inline lent lend(size_t length, int where) {
    lent memory;
    memory.length = length;
    memory.room_length = (length / PAGE + 1) * PAGE;
    uint8_t *pages = mmap(NULL, memory.room_length + 2 * PAGE, PROT_NONE, MAP_PRIVATE | MAP_ANONYMOUS, -1, 0);
    memory.room = pages + PAGE;
    if (pages == MAP_FAILED || mprotect(memory.room, memory.room_length, PROT_READ | PROT_WRITE)) abort();
    memset(memory.room, PATTERN, memory.room_length);
    memory.bytes = memory.room + (where == AT_END ? memory.room_length - length : 0);
    return memory;
}

/* Whether the bytes beside the memory are as they were. */
static inline int beside_untouched(const lent *memory) {
    for (uint8_t *p = memory->room; p < memory->room + memory->room_length; p++)
        if ((p < memory->bytes || p >= memory->bytes + memory->length) && *p != PATTERN) return 0;
    return 1;
}

static inline void take_back(lent *memory) { munmap(memory->room - PAGE, memory->room_length + 2 * PAGE); }

/* The last line of a test program, and its exit status. */
static inline int end_of_checks(const char *name) {
    printf("%s: %d checks, %d failed\n", name, checks, failures);
    return failures > 0 || checks == 0;
}

#endif
