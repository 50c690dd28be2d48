/* Hands bytes to heron_collect from C, and compares each answer and the collector afterwards with what document 01 says.
 *
 * collect [SEED [CASES]]
 *
 * The collector lies between pages that nobody may touch (test.h), at the start of its own and at the end. Every byte is tried on every
 * count that is allowed and on counts past it; then CASES random lines are sent byte by byte. Exit status 1 if something
 * is wrong. */
#include "test.h"

enum { RETURN = 13 };

static bool same_line(const heron_line *a, const heron_line *b)
{
    return memcmp(a->bytes, b->bytes, HERON_LINE_LEN) == 0 && a->len == b->len && a->overlong == b->overlong;
}

static void check_byte(bool holds, const char *what, const heron_line *before, uint8_t byte)
{
    check(holds, "byte %02X on %zu bytes%s: %s", byte, before->len, before->overlong ? ", overlong" : "", what);
}

/* One byte on one collector: what must be answered and left is worked out here, not asked of the library. */
static heron_collected collect(heron_line *line, uint8_t byte)
{
    const heron_line empty = {{0}, 0, false};
    heron_line before = *line, after = *line, ended = empty;
    uint32_t number = 0;
    bool ends = false;

    if (before.len > HERON_LINE_LEN) {
        number = HERON_STATE;
    } else if (byte == RETURN) {
        ends = true;
        ended = before;
        after = empty;
    } else if (before.len == HERON_LINE_LEN) {
        after.overlong = true;
    } else {
        after.bytes[after.len++] = byte;
    }
    heron_collected got = heron_collect(line, byte);
    check_byte(got.number == number, "another number", &before, byte);
    check_byte(got.ended == ends, ends ? "no line ended" : "a line ended", &before, byte);
    check_byte(same_line(&got.line, &ended), "another line handed out", &before, byte);
    check_byte(same_line(line, &after), "another collector left", &before, byte);
    return got;
}

/* Every byte on a collector of this count, with random bytes in it. */
static void test_count(heron_line *line, size_t len, bool overlong)
{
    for (unsigned byte = 0; byte <= 255; byte++) {
        for (size_t i = 0; i < HERON_LINE_LEN; i++)
            line->bytes[i] = (uint8_t)random_next();
        line->len = len;
        line->overlong = overlong;
        collect(line, (uint8_t)byte);
    }
}

/* A line of so many bytes from an empty collector: what is handed out at its end. */
static void test_line(heron_line *line, size_t len)
{
    uint8_t sent[2 * HERON_LINE_LEN];
    memset(line, 0, sizeof *line);
    for (size_t i = 0; i < len; i++) {
        do
            sent[i] = (uint8_t)random_next();
        while (sent[i] == RETURN);
        collect(line, sent[i]);
    }
    heron_collected got = collect(line, RETURN);
    size_t kept = len < HERON_LINE_LEN ? len : HERON_LINE_LEN;
    check_byte(got.line.len == kept && memcmp(got.line.bytes, sent, kept) == 0, "the ended line has other bytes", &got.line, RETURN);
    check_byte(got.line.overlong == (len > HERON_LINE_LEN), "the ended line is marked otherwise", &got.line, RETURN);
}

int main(int argc, char **argv)
{
    unsigned long cases = start_test("collect", argc, argv, 20000);
    uint8_t *page = new_area(false).page;
    heron_line *collectors[2];
    for (int i = 0; i < 2; i++)
        collectors[i] = (heron_line *)(void *)place(page, sizeof(heron_line), i == 0 ? AT_START : AT_END);

    const size_t past[] = {HERON_LINE_LEN + 1, 127, 128, 255, 256, SIZE_MAX / 2, SIZE_MAX - 1, SIZE_MAX};
    for (int at = 0; at < 2; at++) {
        heron_line *line = collectors[at];
        for (int overlong = 0; overlong <= 1; overlong++) {
            for (size_t len = 0; len <= HERON_LINE_LEN; len++)
                test_count(line, len, overlong);
            for (size_t i = 0; i < sizeof past / sizeof past[0]; i++)
                test_count(line, past[i], overlong);
        }
        for (size_t len = 0; len <= 2 * HERON_LINE_LEN; len++)
            test_line(line, len);
    }
    for (unsigned long i = 0; i < cases; i++)
        test_line(collectors[i % 2], random_below(HERON_LINE_LEN + 8));
    return end_test();
}
