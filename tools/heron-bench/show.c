/* What a message is and holds, as read and record say it. */
#include "bench.h"

#include <inttypes.h>

/* ---- what a message holds */

/* The start of a row: the number and name of a field or an item. */
static void print_row(const name *names, int number)
{
    printf("  %2d %-24s", number, names[number].words);
}

/* A distance or the pupil in the display unit. */
static void print_length(int field, const char *sign, uint32_t size, char unit)
{
    print_row(fields, field);
    if (unit == 'I')
        printf("%s%" PRIu32 ".%" PRIu32 " in\n", sign, size / 10, size % 10);
    else
        printf("%s%" PRIu32 " %s\n", sign, size, unit == 'M' ? "mm" : "display units");
}

static void print_record(const heron_record *r, char unit)
{
    print_length(1, "", r->focus, unit);
    print_row(fields, 2);
    printf("f/%" PRIu32 ".%02" PRIu32 "\n", r->aperture / 100, r->aperture % 100);
    print_row(fields, 3);
    printf("%" PRIu32 ".%" PRIu32 "\n", r->stop / 10, r->stop % 10);
    print_row(fields, 4);
    printf("%" PRIu32 "/10 of a stop\n", r->tenth);
    print_row(fields, 5);
    printf("%" PRIu32 " mm\n", r->focal);
    print_length(6, "", r->hyperfocal, unit);
    print_length(7, "", r->near, unit);
    print_length(8, "", r->far, unit);
    print_row(fields, 9);
    printf("%" PRIu32 ".%" PRIu32 " degrees\n", r->view / 10, r->view % 10);
    print_length(10, r->pupil < 0 ? "-" : "+", (uint32_t)(r->pupil < 0 ? -r->pupil : r->pupil), unit);
    print_row(fields, 11);
    printf("%" PRIu32 ".%03" PRIu32 "\n", r->zoom / 1000, r->zoom % 1000);
    print_row(fields, 12);
    print_quoted(r->serial, sizeof r->serial);
    putchar('\n');
}

static const char *letter_words(uint8_t letter)
{
    switch (letter) {
    case 'I': return "imperial";
    case 'M': return "metric";
    case 'B': return "imperial, both can be set";
    default: return "metric, both can be set";
    }
}

static void print_fixed(const heron_fixed *f, const uint8_t *owner, size_t owner_len)
{
    print_row(items, 1);
    print_quoted(f->serial, sizeof f->serial);
    putchar('\n');
    print_row(items, 2);
    print_quoted(owner, owner_len);
    putchar('\n');
    print_row(items, 3);
    printf("%c, %s\n", f->kind, f->kind == 'P' ? "prime" : "zoom");
    print_row(items, 4);
    printf("%" PRIu32 " mm\n", f->focal);
    print_row(items, 5);
    printf("%" PRIu32 " mm\n", f->maximum);
    print_row(items, 6);
    printf("%c, %s\n", f->letter, letter_words(f->letter));
    print_row(items, 7);
    printf("%" PRIu32 "\n", f->transmission);
    print_row(items, 8);
    print_quoted(f->version, sizeof f->version);
    putchar('\n');
}

bool report_form(const buffer *m, form f, bool checksum, heron_answer answer, const uint8_t *contents, char unit)
{
    printf("%s, ", forms[f].words);
    if (answer.number != HERON_DONE) {
        print_refusal(stdout, f, checksum, answer);
        return false;
    }
    printf("%zu bytes\n", m->len);
    if (f == FIXED) {
        heron_fixed fixed = heron_fixed_unpack(contents);
        size_t start = (size_t)heron_owner_start(m->bytes, m->len, checksum).value;
        print_fixed(&fixed, m->bytes + start, (size_t)heron_owner_len(m->bytes, m->len, checksum).value);
    } else {
        heron_record record = heron_record_unpack(contents);
        print_record(&record, unit);
    }
    return true;
}

/* ---- a message that was refused or is none */

void report_too_long(FILE *to, unsigned long long len)
{
    fprintf(to, "refused %d, %s: %llu bytes, more than %d\n", HERON_TOO_LONG, heron_refusal_name(HERON_TOO_LONG), len, HERON_CUTTER_LEN);
}

void report_tail(FILE *to, unsigned long long len)
{
    fprintf(to, "%llu %s without LF CR, no message\n", len, len == 1 ? "byte" : "bytes");
}

void print_bytes(const uint8_t *bytes, size_t len)
{
    fputs("     ", stdout);
    print_quoted(bytes, len);
    putchar('\n');
}

/* ---- a short reply */

static const struct reply {
    const char *start;
    const char *words;
} replies[] = {
    {"<", "ready"},
    {"!", "done"},
    {"?", "unknown command"},
    {"B ", "version"},
    {"K3", "maker"},
    {"K4", "type name"},
    {"Kb", "rate number"},
    {"P", "temperature in degrees"},
    {"V", "blur circle in mm"},
    {"W", "blur circle in mm"},
    {"X", "display unit imperial"},
    {"Y", "display unit metric"},
};

static const struct reply *reply_starting(const buffer *m)
{
    for (size_t i = 0; i < sizeof replies / sizeof replies[0]; i++) {
        size_t len = strlen(replies[i].start);
        if (m->len >= len && memcmp(m->bytes, replies[i].start, len) == 0)
            return &replies[i];
    }
    return NULL;
}

static bool ends_lf_cr(const buffer *m)
{
    return m->len >= 2 && m->bytes[m->len - 2] == '\n' && m->bytes[m->len - 1] == '\r';
}

/* A reply's ending, refused with the numbers of the readers and in their order. Done: value is the count of bytes before it. */
static heron_answer open_reply(const buffer *m, const struct reply *reply, bool checksum)
{
    size_t ending = checksum ? 4 : 2;
    if (m->len < strlen(reply->start) + ending)
        return (heron_answer){HERON_LENGTH, m->len};
    if (!ends_lf_cr(m))
        return (heron_answer){HERON_END, 0};
    size_t len = m->len - ending;
    uint64_t sum = heron_checksum(m->bytes, len).value;
    if (checksum && (m->bytes[len] != sum / 256 || m->bytes[len + 1] != sum % 256))
        return (heron_answer){HERON_CHECKSUM, 0};
    return (heron_answer){HERON_DONE, len};
}

/* What a reply says, by its bytes before the ending: PFF is no number of degrees. */
static const char *reply_words(const struct reply *reply, const uint8_t *bytes, size_t len)
{
    return len == 3 && memcmp(bytes, "PFF", len) == 0 ? "temperature below 0 degrees" : reply->words;
}

bool report_reply(const buffer *m, bool checksum)
{
    const struct reply *reply = reply_starting(m);
    if (reply == NULL) {
        puts("refused, no message starts so");
        return false;
    }
    printf("reply, ");
    heron_answer opened = open_reply(m, reply, checksum);
    if (opened.number != HERON_DONE) {
        print_refusal(stdout, NO_FORM, checksum, opened);
        return false;
    }
    size_t len = (size_t)opened.value;
    printf("%zu bytes: %s, ", m->len, reply_words(reply, m->bytes, len));
    print_quoted(m->bytes, len);
    putchar('\n');
    return true;
}
