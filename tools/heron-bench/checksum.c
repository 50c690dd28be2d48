/* heron-bench checksum: the two characters of some bytes. */
#include "bench.h"

#include <stdlib.h>

static const option options[] = {
    {'x', "hex", NULL, "the bytes are given in hex, two digits each"},
    HELP_AND_END,
};

static bool add_input(FILE *in, const char *where, void *with)
{
    (void)where;
    for (int byte; (byte = getc(in)) != EOF;)
        buffer_add(with, byte);
    return !ferror(in);
}

/* In hex a byte does not go on in the next word. */
static void add_words(buffer *b, const arguments *a, bool hex)
{
    for (int i = 0; i < a->count; i++) {
        for (const char *at = a->words[i]; *at != '\0'; at++)
            buffer_add(b, (uint8_t)*at);
        if (hex)
            buffer_add(b, ' ');
    }
}

static int checksum_command(arguments *a)
{
    bool hex = false;
    while (next_option(a) != 0)
        hex = true;

    buffer given = {NULL, 0, 0}, unhexed = {NULL, 0, 0};
    int status = DONE;
    if (a->count > 0)
        add_words(&given, a, hex);
    else if (!take_stdin(a->verb, add_input, &given))
        status = USAGE;
    long wrong = hex ? buffer_add_hex(&unhexed, (const char *)given.bytes, given.len) : -1;
    const buffer *bytes = hex ? &unhexed : &given;
    if (wrong >= 0) {
        say(a->verb, "no hex at character %ld: a byte is two digits, such as 0A", wrong + 1);
        status = USAGE;
    }
    if (status == DONE) {
        uint64_t sum = heron_checksum(bytes->bytes, bytes->len).value;
        printf("%c%c\n", (char)(sum / 256), (char)(sum % 256));
    }
    free(given.bytes);
    free(unhexed.bytes);
    return printed(status);
}

const verb checksum_verb = {
    .name = "checksum",
    .purpose = "the two checksum characters of some bytes",
    .usage = "[OPTION...] [BYTES...]",
    .does = "Prints the two checksum characters of some bytes.\n",
    .options = options,
    .more = "Reads the bytes from the words, joined without a space, or where there is none\n"
            "from standard input. A word is never the name of a file.\n",
    .example = "heron-bench checksum 'B 4.34'",
    .done = "done",
    .refused = NULL,
    .run = checksum_command,
};
