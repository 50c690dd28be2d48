/* What the C tests share: reporting, random numbers, and memory between two pages that nobody may touch.
 *
 * The library is not built with the sanitizers, so they do not see what it touches. All memory that it is handed therefore lies between
 * two such pages, at the end of its own page or at its start: one byte past it or before it, read or written, ends the program. Input is
 * read-only. The rest of an output's page is filled and must stay so. */
#ifndef TEST_H
#define TEST_H

#include <hourheron.h>
#include <stdbool.h>
#include <stddef.h>
#include <stdint.h>
#include <string.h>

/* ---- what is reported */

/* Takes SEED and CASES from the arguments, 1 and `cases` where there are none, and returns CASES. */
unsigned long start_test(const char *program, int argc, char **argv, unsigned long cases);

__attribute__((format(printf, 2, 3))) void check(bool holds, const char *format, ...);

/* Prints how many checks there were and how many wrong; returns the exit status. */
int end_test(void);

/* ---- random numbers (splitmix64) */

uint64_t random_next(void);
uint32_t random_below(uint32_t n);

/* ---- memory */

enum { FILL = 0xEE };
typedef enum { AT_END, AT_START } edge;

typedef struct {
    uint8_t *page;    /* as the library is handed it */
    uint8_t *written; /* the same page seen a second time, to write to it */
} area;

extern size_t page_size;

area new_area(bool read_only);

/* Where len bytes lie. With none it is null, or the place of the page that nobody may touch. */
uint8_t *place(uint8_t *page, size_t len, edge e);

/* Bytes for the library to read. */
const uint8_t *hand_in(area a, const uint8_t *bytes, size_t len, edge e);

/* Memory for the library to write to, on a page that is filled. */
uint8_t *lend(size_t len, edge e);

/* Whether the memory lent last starts with these bytes and all else on its page is as it was. */
bool holds_only(const uint8_t *out, const uint8_t *bytes, size_t len);

#endif
