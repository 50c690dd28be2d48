/* The inputs of a command line, and a stream in pieces. Where a message of a stream ends is the library's to say. */
#define _POSIX_C_SOURCE 200809L
#include "bench.h"

#include <errno.h>
#include <unistd.h>

/* ---- the inputs */

static bool take_input(const verb *v, FILE *in, const char *where, input_taker take, void *with)
{
    bool whole = take(in, where, with);
    if (!whole)
        say(v, "%s: cannot be read: %s", where, strerror(errno));
    return whole;
}

bool take_stdin(const verb *v, input_taker take, void *with)
{
    if (isatty(STDIN_FILENO) == 1)
        say(v, "reads what is typed; Ctrl-D ends it");
    return take_input(v, stdin, "stdin", take, with);
}

static bool take_file(const verb *v, const char *path, input_taker take, void *with)
{
    FILE *in = fopen(path, "rb");
    if (in == NULL) {
        say(v, "%s: %s", path, strerror(errno));
        return false;
    }
    bool whole = take_input(v, in, path, take, with);
    fclose(in);
    return whole;
}

bool take_inputs(const arguments *a, input_taker take, void *with)
{
    bool whole = a->count > 0 || take_stdin(a->verb, take, with);
    for (int i = 0; i < a->count; i++)
        whole = (strcmp(a->words[i], "-") == 0 ? take_stdin(a->verb, take, with)
                                               : take_file(a->verb, a->words[i], take, with)) && whole;
    return whole;
}

/* ---- a stream */

/* As much as there is, without waiting for a full piece: the count of bytes, 0 at the end, or -1 with errno. */
static ssize_t next_piece(FILE *in, uint8_t *piece, size_t len)
{
    flushed();
    ssize_t came;
    do
        came = read(fileno(in), piece, len);
    while (came < 0 && errno == EINTR);
    return came;
}

bool cut_stream(FILE *in, part_taker take, void *with)
{
    static uint8_t piece[65536];
    uint8_t held[HERON_CUTTER_LEN];
    heron_cutter cutter = {{0}, 0};
    unsigned long long start = 0, len = 0; /* of the message at hand */
    ssize_t came;
    while ((came = next_piece(in, piece, sizeof piece)) > 0 && !ferror(stdout))
        for (size_t at = 0; at < (size_t)came;) {
            /* A message that starts in the piece is handed on from there: no memory is lent for it, and 2 is the answer. */
            bool here = len == 0;
            uint8_t *bytes = here ? piece + at : held;
            heron_cut cut = heron_cut_message(&cutter, piece + at, (size_t)came - at, held, here ? 0 : sizeof held);
            at += cut.used;
            len += cut.used;
            if (!cut.ended)
                continue;
            take(&(part){true, start, len, cut.number == HERON_TOO_LONG ? NULL : bytes}, with);
            start += len;
            len = 0;
        }
    if (came == 0 && len > 0)
        take(&(part){false, start, len, cutter.len <= HERON_CUTTER_LEN ? cutter.bytes : NULL}, with);
    return came >= 0;
}
