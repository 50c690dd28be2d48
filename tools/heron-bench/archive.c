/* heron-bench archive: moves the text records of old zoom firmware to the present form, and back. What such a line is and
 * which of them can be moved is the library's to say. */
#include "bench.h"

static const option options[] = {
    {'s', "serial", "SERIAL", "the serial that forward adds, nine characters"},
    HELP_AND_END,
};

/* With the serial. */
static heron_answer forward(const part *p, const void *with, uint8_t *out, size_t out_len)
{
    const char *serial = with;
    return heron_old_to_new(p->bytes, (size_t)p->len, (const uint8_t *)serial, strlen(serial), out, out_len);
}

static heron_answer back(const part *p, const void *with, uint8_t *out, size_t out_len)
{
    (void)with;
    return heron_new_to_old(p->bytes, (size_t)p->len, out, out_len);
}

static int archive_command(arguments *a)
{
    const char *serial = NULL; /* not given */
    while (next_option(a) != 0)
        serial = a->value;
    if (a->count == 0)
        wrong_usage(a->verb, "say forward or back");
    const char *way = a->words[0];
    bool is_forward = strcmp(way, "forward") == 0;
    if (!is_forward && strcmp(way, "back") != 0)
        wrong_usage(a->verb, "forward or back comes first, not '%s'", way);
    if (is_forward && serial == NULL)
        wrong_usage(a->verb, "forward takes --serial SERIAL");
    if (!is_forward && serial != NULL)
        wrong_usage(a->verb, "back takes no --serial");
    a->words++;
    a->count--;

    const move moves[] = {
        {back, NULL, HERON_TEXT_LEN, HERON_OLD_LEN, "as long as a line of the old form: moved already?"},
        {forward, serial, HERON_OLD_LEN, HERON_TEXT_LEN, "as long as a line of the present form: moved already?"},
    };
    return move_inputs(&moves[is_forward], a);
}

const verb archive_verb = {
    .name = "archive",
    .purpose = "moves records of old zoom firmware to the present form and back",
    .usage = "forward --serial SERIAL [FILE...]\n"
             "       heron-bench archive back [FILE...]",
    .does = "Moves text records (D) of old zoom firmware to the present form, or back.\n"
            "\n"
            "  forward   adds the serial, and the zoom z0.57 becomes z0570\n"
            "  back      drops the serial, and the zoom's last digit, which must be 0\n",
    .options = options,
    .more = MOVE_MORE
            "Messages carry no checksums. An entrance pupil of -000 comes out as +000.\n",
    .example = "heron-bench archive forward --serial 4050.0093 OLD >NEW",
    .done = "all done",
    .refused = "some refused or left out",
    .run = archive_command,
};
