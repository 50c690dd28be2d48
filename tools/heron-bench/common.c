/* Names, refusals and bytes: what every verb uses. */
#include "bench.h"

#include <inttypes.h>
#include <stdlib.h>

/* ---- names */

const form_facts forms[NO_FORM] = {
    {"text", "text record", {HERON_TEXT_LEN, HERON_TEXT_LEN_CHECKSUM}},
    {"packed", "packed record", {HERON_PACKED_LEN, HERON_PACKED_LEN_CHECKSUM}},
    {"fixed", "fixed data", {HERON_FIXED_LEN, HERON_FIXED_LEN_CHECKSUM}},
};

const name fields[FIELDS] = {
    {"unit", "unit letter"},
    {"focus", "focus distance"},
    {"aperture", "true aperture"},
    {"stop", "ring stop"},
    {"tenth", "tenth"},
    {"focal", "effective focal length"},
    {"hyperfocal", "hyperfocal distance"},
    {"near", "near distance"},
    {"far", "far distance"},
    {"view", "field of view"},
    {"pupil", "entrance pupil"},
    {"zoom", "normalised zoom"},
    {"serial", "serial"},
    {"temperature", "temperature"},
};

const name items[ITEMS] = {
    {NULL, NULL},
    {"serial", "serial"},
    {"owner", "owner"},
    {"kind", "lens type"},
    {"focal", "focal length"},
    {"maximum", "maximum focal length"},
    {"letter", "start-up letter"},
    {"transmission", "transmission"},
    {"version", "version"},
};

form form_called(const char *word)
{
    int f = 0;
    while (f < NO_FORM && strcmp(word, forms[f].key) != 0)
        f++;
    return (form)f;
}

static void print_field(FILE *to, uint64_t field)
{
    fprintf(to, ": field %" PRIu64, field);
    if (field < FIELDS)
        fprintf(to, ", %s", fields[field].words);
}

static void print_item(FILE *to, uint64_t item)
{
    fprintf(to, ": item %" PRIu64, item);
    if (item > 0 && item < ITEMS)
        fprintf(to, ", %s", items[item].words);
}

/* Of contents whose parts are fields or items, in a message of so many bytes, 0 where that is not known. */
static void print_refused(FILE *to, bool has_items, size_t length, heron_answer refused)
{
    fprintf(to, "refused %" PRIu32 ", %s", refused.number, heron_refusal_name(refused.number));
    switch (refused.number) {
    case HERON_FIELD:
        print_field(to, refused.value);
        break;
    case HERON_SETTING:
        print_item(to, refused.value);
        break;
    case HERON_CONTENTS:
        if (has_items)
            print_item(to, refused.value);
        else
            print_field(to, refused.value);
        break;
    case HERON_LENGTH:
        fprintf(to, ": %" PRIu64 " bytes", refused.value);
        if (length > 0)
            fprintf(to, ", not %zu", length);
        break;
    default:
        break;
    }
    fputc('\n', to);
}

void print_refusal(FILE *to, form f, bool checksum, heron_answer refused)
{
    print_refused(to, f == FIXED, f == NO_FORM ? 0 : forms[f].length[checksum], refused);
}

void print_record_refusal(FILE *to, size_t length, heron_answer refused)
{
    print_refused(to, false, length, refused);
}

void print_counts(FILE *to, const counts *c)
{
    fprintf(to, "messages: %lu, refused: %lu\n", c->messages, c->refused);
}

void say_other(const verb *v, const counts *c, const char *hint)
{
    if (2 * c->other > c->messages)
        say(v, "%lu of the refused %s %s", c->other, c->other == 1 ? "is" : "are", hint);
}

int refuse(const verb *v, form f, bool checksum, heron_answer refused)
{
    fprintf(stderr, "heron-bench %s: ", v->name);
    print_refusal(stderr, f, checksum, refused);
    say(v, "'heron-bench %s --help' has the ranges", v->name);
    return REFUSED;
}

/* ---- bytes */

void buffer_add(buffer *b, int byte)
{
    if (b->len == b->room) {
        b->room = b->room == 0 ? 256 : 2 * b->room;
        b->bytes = realloc(b->bytes, b->room);
        if (b->bytes == NULL) {
            fputs("heron-bench: no memory left\n", stderr);
            exit(USAGE);
        }
    }
    b->bytes[b->len++] = (uint8_t)byte;
}

static int hex_digit(char c)
{
    static const char digits[] = "0123456789abcdef0123456789ABCDEF";
    const char *at = c == '\0' ? NULL : strchr(digits, c);
    return at == NULL ? -1 : (int)((at - digits) % 16);
}

long buffer_add_hex(buffer *b, const char *text, size_t len)
{
    size_t i = 0;
    while (i < len) {
        if (text[i] == ' ' || text[i] == '\t' || text[i] == '\r' || text[i] == '\n') {
            i++;
            continue;
        }
        int high = hex_digit(text[i]);
        if (high < 0)
            return (long)i;
        int low = i + 1 < len ? hex_digit(text[i + 1]) : -1;
        if (low < 0)
            return (long)i + 1;
        buffer_add(b, 16 * high + low);
        i += 2;
    }
    return -1;
}

void print_hex(const uint8_t *bytes, size_t len)
{
    for (size_t i = 0; i < len; i++)
        printf("%s%02X", i == 0 ? "" : " ", bytes[i]);
    putchar('\n');
}

void print_quoted(const uint8_t *bytes, size_t len)
{
    putchar('"');
    for (size_t i = 0; i < len; i++)
        if (bytes[i] < ' ' || bytes[i] > '~' || bytes[i] == '"' || bytes[i] == '\\')
            printf("\\x%02X", bytes[i]);
        else
            putchar(bytes[i]);
    putchar('"');
}
