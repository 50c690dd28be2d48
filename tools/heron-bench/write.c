/* heron-bench write: the message of fields given by name. */
#include "bench.h"

static const option options[] = {
    {'c', "checksum", NULL, "with a checksum"},
    {'x', "hex", NULL, "in hex, as 'heron-bench read --hex' takes it"},
    HELP_AND_END,
};

/* The values given on the command line, by field or item. */
typedef struct {
    const verb *verb;
    form form;
    const name *names;
    uint32_t last;
    const char *of[FIELDS];
} values;

/* ---- the command line */

/* Takes NAME=VALUE. */
static void take(values *v, const char *word)
{
    size_t len = strcspn(word, "=");
    uint32_t i = 1;
    if (word[len] != '=')
        wrong_usage(v->verb, "takes NAME=VALUE, not '%s'", word);
    while (i <= v->last && (strlen(v->names[i].key) != len || memcmp(v->names[i].key, word, len) != 0))
        i++;
    if (i > v->last)
        wrong_usage(v->verb, "%s has no name '%.*s'", forms[v->form].words, (int)len, word);
    if (v->of[i] != NULL)
        wrong_usage(v->verb, "%s is given twice", v->names[i].key);
    v->of[i] = word + len + 1;
}

static void none_missing(const values *v)
{
    char missing[256] = "";
    for (uint32_t i = 1; i <= v->last; i++) {
        size_t len = strlen(missing);
        if (v->of[i] == NULL)
            snprintf(missing + len, sizeof missing - len, " %s", v->names[i].key);
    }
    if (missing[0] != '\0')
        wrong_usage(v->verb, "%s: missing:%s", forms[v->form].words, missing);
}

static uint32_t number_of(const values *v, uint32_t i)
{
    uint32_t number;
    if (!parse_u32(v->of[i], &number))
        wrong_usage(v->verb, "%s takes " WHOLE_NUMBER ", not '%s'", v->names[i].key, v->of[i]);
    return number;
}

static uint8_t letter_of(const values *v, uint32_t i)
{
    if (strlen(v->of[i]) != 1)
        wrong_usage(v->verb, "%s takes one character, not '%s'", v->names[i].key, v->of[i]);
    return (uint8_t)v->of[i][0];
}

/* ---- the message */

static const uint8_t *bytes_of(const char *text)
{
    return (const uint8_t *)text;
}

static heron_answer make_record(const values *v, bool checksum, uint8_t *out, size_t out_len)
{
    uint32_t n[12] = {0};
    int32_t pupil = 0;
    for (uint32_t i = 1; i <= 11; i++)
        if (i != 10)
            n[i] = number_of(v, i);
    if (!parse_i32(v->of[10], &pupil))
        wrong_usage(v->verb, "%s takes " WHOLE_NUMBER " with its sign, not '%s'", v->names[10].key, v->of[10]);
    const char *serial = v->of[12];
    return (v->form == TEXT ? heron_write_text : heron_write_packed)(
        n[1], n[2], n[3], n[4], n[5], n[6], n[7], n[8], n[9], pupil, n[11], bytes_of(serial), strlen(serial), checksum,
        out, out_len);
}

static heron_answer make_fixed(const values *v, bool checksum, uint8_t *out, size_t out_len)
{
    /* An owner that is shorter is filled up with spaces; a longer one is handed over as it is. */
    char filled[HERON_OWNER_LEN + 1];
    const char *serial = v->of[1], *owner = v->of[2], *version = v->of[8];
    if (strlen(owner) < HERON_OWNER_LEN) {
        snprintf(filled, sizeof filled, "%-*s", HERON_OWNER_LEN, owner);
        owner = filled;
    }
    return heron_write_fixed(bytes_of(serial), strlen(serial), bytes_of(owner), strlen(owner), letter_of(v, 3),
                             number_of(v, 4), number_of(v, 5), letter_of(v, 6), number_of(v, 7), bytes_of(version),
                             strlen(version), checksum, out, out_len);
}

static int write_command(arguments *a)
{
    bool checksum = false, hex = false;
    for (char letter; (letter = next_option(a)) != 0;)
        *(letter == 'x' ? &hex : &checksum) = true;
    if (a->count == 0)
        wrong_usage(a->verb, "say text, packed or fixed");
    form f = form_called(a->words[0]);
    if (f == NO_FORM)
        wrong_usage(a->verb, "text, packed or fixed comes first, not '%s'", a->words[0]);
    values v = {a->verb, f, f == FIXED ? items : fields, f == FIXED ? 8 : 12, {NULL}};
    for (int i = 1; i < a->count; i++)
        take(&v, a->words[i]);
    none_missing(&v);

    uint8_t out[HERON_LONGEST];
    heron_answer answer = (f == FIXED ? make_fixed : make_record)(&v, checksum, out, sizeof out);
    if (answer.number != HERON_DONE)
        return refuse(a->verb, f, checksum, answer);
    if (hex)
        print_hex(out, (size_t)answer.value);
    else
        fwrite(out, 1, (size_t)answer.value, stdout);
    return printed(DONE);
}

const verb write_verb = {
    .name = "write",
    .purpose = "writes a text record, a packed record or fixed data",
    .usage = "text|packed|fixed [OPTION...] NAME=VALUE...",
    .does = "Writes one message, of every name below given once, in any order.\n",
    .options = options,
    .more = "A record; focus, hyperfocal, near, far, pupil in the unit, 0.1 inch or 1 mm:\n"
            "   1 focus       0..9999999                  7 near    0..9999999\n"
            "   2 aperture    0..4095, x100               8 far     0..9999999\n"
            "   3 stop        0..250, x10; tens from 100  9 view    0..4095, degrees x10\n"
            "   4 tenth       0..9                       10 pupil   -999..999\n"
            "   5 focal       0..1023 mm                 11 zoom    0..1000, x1000\n"
            "   6 hyperfocal  0..9999999                 12 serial  nine characters\n"
            "Fixed data (N):\n"
            "   1 serial      nine characters             5 maximum       0..999 mm\n"
            "   2 owner       up to 31 characters         6 letter        I, M, B or b\n"
            "   3 kind        P (prime) or Z (zoom)       7 transmission  0..99\n"
            "   4 focal       0..999 mm                   8 version       four characters\n",
    .example = "heron-bench write fixed serial=4050.0093 owner=ME kind=P focal=50 \\\n"
               "             maximum=50 letter=I transmission=95 version=4.34 | heron-bench read",
    .done = "written",
    .refused = "refused",
    .run = write_command,
};
