/* heron-bench convert: a number from one unit to the other. */
#include "bench.h"

#include <inttypes.h>

static const option options[] = {HELP_AND_END};

static uint32_t parse_field(const verb *v, const char *word)
{
    uint32_t field;
    for (field = 1; field <= 12; field++)
        if (strcmp(word, fields[field].key) == 0)
            return field;
    if (!parse_u32(word, &field))
        wrong_usage(v, "there is no field '%s'", word);
    return field;
}

static int convert_command(arguments *a)
{
    next_option(a);
    if (a->count != 4)
        wrong_usage(a->verb, "takes FIELD NUMBER UNIT WANTED, not %d words", a->count);
    uint32_t field = parse_field(a->verb, a->words[0]);
    int32_t number;
    if (!parse_i32(a->words[1], &number))
        wrong_usage(a->verb, "NUMBER is " WHOLE_NUMBER ", not '%s'", a->words[1]);
    for (int i = 2; i <= 3; i++)
        if (strlen(a->words[i]) != 1)
            wrong_usage(a->verb, "a unit is the letter I or M, not '%s'", a->words[i]);

    heron_converted converted = heron_convert(field, number, (uint8_t)a->words[2][0], (uint8_t)a->words[3][0]);
    if (converted.number != HERON_DONE)
        return refuse(a->verb, NO_FORM, false, (heron_answer){converted.number, converted.field});
    printf("%" PRId32 "\n", converted.value);
    return printed(DONE);
}

const verb convert_verb = {
    .name = "convert",
    .purpose = "a distance or the entrance pupil from one unit to the other",
    .usage = "FIELD NUMBER UNIT WANTED",
    .does = "Prints the number of a field in the wanted unit, the nearest whole one.\n",
    .options = options,
    .more = "FIELD is focus (1), hyperfocal (6), near (7), far (8) or pupil (10), by name or\n"
            "by number. UNIT and WANTED are letters:\n"
            "  I   0.1 inch: 0..3937007, pupil -393..393\n"
            "  M   1 mm: 0..9999999, pupil -999..999\n"
            "A refusal is told on standard error, and nothing is printed.\n",
    .example = "heron-bench convert pupil -25 I M",
    .done = "done",
    .refused = "refused",
    .run = convert_command,
};
