/* heron-bench read: says what each message is and holds. */
#include "bench.h"

#include <stdlib.h>

static const option options[] = {
    {'c', "checksum", NULL, "the messages carry checksums"},
    {'f', "form", "FORM", "each message is text, packed or fixed; without it the first\n"
                          "byte tells: D text, d packed, N fixed, others a short reply"},
    {'u', "unit", "UNIT", UNIT_SAYS},
    {'l', "lines", NULL, "a message is a line, without its LF CR"},
    {'x', "hex", NULL, "a message is a line in hex, with its LF CR: 64 40 ... 0A 0D"},
    HELP_AND_END,
};

typedef struct {
    bool checksum;
    form form; /* NO_FORM: the first byte tells */
    enum { STREAM, LINES, HEX } input;
    char unit; /* I, M, or 0 for not given */
} wishes;

/* ---- a message */

static form form_told_by(const buffer *m)
{
    switch (m->len == 0 ? 0 : m->bytes[0]) {
    case 'D': return TEXT;
    case 'd': return PACKED;
    case 'N': return FIXED;
    default: return NO_FORM;
    }
}

static bool report(const buffer *m, const wishes *o, counts *c)
{
    static heron_answer (*const readers[NO_FORM])(const uint8_t *, size_t, bool, uint8_t *, size_t) = {
        heron_read_text, heron_read_packed, heron_read_fixed};
    form f = o->form == NO_FORM ? form_told_by(m) : o->form;
    if (f == NO_FORM)
        return report_reply(m, o->checksum);
    uint8_t contents[CONTENTS_BYTES];
    heron_answer answer = readers[f](m->bytes, m->len, o->checksum, contents, sizeof contents);
    c->other += answer.number == HERON_LENGTH && answer.value == forms[f].length[!o->checksum];
    return report_form(m, f, o->checksum, answer, contents, o->unit);
}

/* Says of a message what it is and counts it; shows one that was refused. */
static void take(const buffer *m, const wishes *o, counts *c)
{
    c->messages++;
    if (!report(m, o, c)) {
        c->refused++;
        print_bytes(m->bytes, m->len);
    }
}

/* ---- the input */

/* What a part of the input is taken with. */
typedef struct {
    const verb *verb;
    const wishes *o;
    counts *c;
    const char *where;
} reading;

static void take_part(const part *p, void *with)
{
    const reading *r = with;
    printf("%s: byte %llu: ", r->where, p->start);
    if (!p->ended) {
        report_tail(stdout, p->len);
        if (p->bytes != NULL)
            print_bytes(p->bytes, (size_t)p->len);
        if (p->start == 0)
            say(r->verb, "%s: there is no LF CR in it; a message a line is read by --lines, in hex by --hex", r->where);
    } else if (p->bytes != NULL) {
        take(&(buffer){p->bytes, (size_t)p->len, (size_t)p->len}, r->o, r->c);
    } else {
        report_too_long(stdout, p->len);
        r->c->messages++;
        r->c->refused++;
    }
}

static bool read_stream(FILE *in, reading *r)
{
    return cut_stream(in, take_part, r);
}

/* A line without its LF; false where there is none. */
static bool next_line(FILE *in, buffer *line)
{
    line->len = 0;
    int byte;
    while ((byte = getc(in)) != EOF && byte != '\n')
        buffer_add(line, byte);
    return byte != EOF || line->len > 0;
}

/* The message that a line is, its LF CR put to it. */
static void message_of_line(const buffer *line, buffer *m)
{
    size_t first = line->len > 0 && line->bytes[0] == '\r' ? 1 : 0;
    size_t last = line->len > first && line->bytes[line->len - 1] == '\r' ? line->len - 1 : line->len;
    for (size_t i = first; i < last; i++)
        buffer_add(m, line->bytes[i]);
    if (m->len > 0) {
        buffer_add(m, '\n');
        buffer_add(m, '\r');
    }
}

static bool read_lines(FILE *in, reading *r)
{
    buffer line = {NULL, 0, 0};
    buffer m = {NULL, 0, 0};
    for (unsigned long long number = 1; !ferror(stdout) && next_line(in, &line); number++) {
        m.len = 0;
        long wrong = -1;
        if (r->o->input == HEX)
            wrong = buffer_add_hex(&m, (const char *)line.bytes, line.len);
        else
            message_of_line(&line, &m);
        if (wrong >= 0) {
            printf("%s: line %llu: refused, no hex at character %ld\n", r->where, number, wrong + 1);
            print_bytes(line.bytes, line.len);
            r->c->messages++;
            r->c->refused++;
        } else if (m.len > 0) {
            printf("%s: line %llu: ", r->where, number);
            take(&m, r->o, r->c);
        }
        flushed();
    }
    free(line.bytes);
    free(m.bytes);
    return !ferror(in);
}

static bool read_input(FILE *in, const char *where, void *with)
{
    reading *r = with;
    r->where = where;
    return (r->o->input == STREAM ? read_stream : read_lines)(in, r);
}

static wishes take_options(arguments *a)
{
    wishes o = {false, NO_FORM, STREAM, 0};
    bool lines = false, hex = false;
    for (char letter; (letter = next_option(a)) != 0;)
        switch (letter) {
        case 'c': o.checksum = true; break;
        case 'f': o.form = given_form(a, NO_FORM); break;
        case 'u': o.unit = given_unit(a); break;
        case 'l': lines = true; break;
        case 'x': hex = true; break;
        }
    if (lines && hex)
        wrong_usage(a->verb, "takes one of --lines and --hex, not both");
    o.input = lines ? LINES : hex ? HEX : STREAM;
    return o;
}

static int read_command(arguments *a)
{
    wishes o = take_options(a);
    counts c = {0, 0, 0};
    reading r = {a->verb, &o, &c, NULL};
    bool whole = take_inputs(a, read_input, &r);
    print_counts(stdout, &c);
    int status = printed(!whole ? USAGE : c.refused > 0 ? REFUSED : DONE);
    say_other(a->verb, &c, o.checksum ? AS_PLAIN ": try it without --checksum" : AS_CHECKSUM ": try --checksum");
    return status;
}

const verb read_verb = {
    .name = "read",
    .purpose = "says what each message of a stream or a file is and holds",
    .usage = "[OPTION...] [FILE...]",
    .does = "Says of each message where it stands, what it is and what it holds.\n",
    .options = options,
    .more = STREAM_MORE "Bytes behind the last one are shown and are no\n"
            "message. With --lines and --hex empty lines are skipped, and with --lines a CR\n"
            "at either end of a line. A refused message is shown with the reason, and the\n"
            "next one is read. Of a short reply the ending and the checksum are judged.\n"
            "The last line counts the messages.\n",
    .example = "heron-bench read --unit I DAY",
    .done = "all accepted",
    .refused = "some refused",
    .run = read_command,
};
