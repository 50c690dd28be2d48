/* What the C tests share (test.h). */
#define _DEFAULT_SOURCE
#include "test.h"

#include <inttypes.h>
#include <stdarg.h>
#include <stdio.h>
#include <stdlib.h>
#include <sys/mman.h>
#include <unistd.h>

static const char *name;
static uint64_t seed, random_state;
static unsigned long checks, wrong;

size_t page_size;
static area out_area;
static uint8_t *filled; /* what the page of the output holds before a call */

/* ---- what is reported */

static void needs(bool done, const char *what)
{
    if (done)
        return;
    fprintf(stderr, "c %s: ", name);
    perror(what);
    exit(2);
}

unsigned long start_test(const char *program, int argc, char **argv, unsigned long cases)
{
    name = program;
    seed = random_state = argc > 1 ? strtoull(argv[1], NULL, 10) : 1;
    page_size = (size_t)sysconf(_SC_PAGESIZE);
    out_area = new_area(false);
    filled = new_area(false).page;
    memset(filled, FILL, page_size);
    return argc > 2 ? strtoul(argv[2], NULL, 10) : cases;
}

void check(bool holds, const char *format, ...)
{
    checks++;
    if (holds || wrong++ >= 20)
        return;
    va_list given;
    va_start(given, format);
    printf("c %s: ", name);
    vprintf(format, given);
    putchar('\n');
    va_end(given);
}

int end_test(void)
{
    printf("c %s: %lu checks, %lu wrong, seed %" PRIu64 "\n", name, checks, wrong, seed);
    return wrong > 0;
}

/* ---- random numbers */

uint64_t random_next(void)
{
    uint64_t z = random_state += 0x9E3779B97F4A7C15u;
    z = (z ^ (z >> 30)) * 0xBF58476D1CE4E5B9u;
    z = (z ^ (z >> 27)) * 0x94D049BB133111EBu;
    return z ^ (z >> 31);
}

uint32_t random_below(uint32_t n)
{
    return (uint32_t)(random_next() % n);
}

/* ---- memory */

/* The page of a file, between two pages that nobody may touch. */
static uint8_t *between(int file, int protection)
{
    uint8_t *three = mmap(NULL, 3 * page_size, PROT_NONE, MAP_PRIVATE | MAP_ANONYMOUS, -1, 0);
    needs(three != MAP_FAILED, "mmap");
    needs(mmap(three + page_size, page_size, protection, MAP_SHARED | MAP_FIXED, file, 0) != MAP_FAILED, "mmap");
    return three + page_size;
}

area new_area(bool read_only)
{
    FILE *file = tmpfile();
    needs(file != NULL && ftruncate(fileno(file), (off_t)page_size) == 0, "tmpfile");
    area made = {between(fileno(file), read_only ? PROT_READ : PROT_READ | PROT_WRITE), between(fileno(file), PROT_READ | PROT_WRITE)};
    fclose(file);
    return made;
}

uint8_t *place(uint8_t *page, size_t len, edge e)
{
    if (len == 0 && e == AT_START)
        return NULL;
    return e == AT_END ? page + page_size - len : page;
}

const uint8_t *hand_in(area a, const uint8_t *bytes, size_t len, edge e)
{
    if (len > 0)
        memcpy(place(a.written, len, e), bytes, len);
    return place(a.page, len, e);
}

uint8_t *lend(size_t len, edge e)
{
    memset(out_area.page, FILL, page_size);
    return place(out_area.page, len, e);
}

bool holds_only(const uint8_t *out, const uint8_t *bytes, size_t len)
{
    size_t before = len > 0 ? (size_t)(out - out_area.page) : 0, after = before + len;
    return (len == 0 || memcmp(out, bytes, len) == 0) && memcmp(out_area.page, filled, before) == 0 &&
           memcmp(out_area.page + after, filled, page_size - after) == 0;
}
