/* heron-bench transfer: turns packed records to text. What such a record is and how it is written is the library's to say. */
#include "bench.h"

static const option options[] = {
    {'p', "plain", NULL, "the records carry no checksums, nor do the text records"},
    {'c', "checksum", NULL, "the records carry checksums, and so do the text records"},
    HELP_AND_END,
};

static heron_answer to_text(const part *p, const void *with, uint8_t *out, size_t out_len)
{
    const bool *checksum = with;
    return heron_packed_to_text(p->bytes, (size_t)p->len, *checksum, out, out_len);
}

static int transfer_command(arguments *a)
{
    bool plain = false, checksum = false;
    for (char letter; (letter = next_option(a)) != 0;)
        *(letter == 'p' ? &plain : &checksum) = true;
    if (!plain && !checksum)
        wrong_usage(a->verb, "say --plain or --checksum");
    if (plain && checksum)
        wrong_usage(a->verb, "takes one of --plain and --checksum, not both");

    const move text = {to_text, &checksum, forms[PACKED].length[checksum], forms[PACKED].length[plain],
                       checksum ? AS_PLAIN ": try --plain" : AS_CHECKSUM ": try --checksum"};
    return move_inputs(&text, a);
}

const verb transfer_verb = {
    .name = "transfer",
    .purpose = "turns packed records to text records",
    .usage = "--plain|--checksum [FILE...]",
    .does = "Turns packed records (Kd) to text records (D).\n",
    .options = options,
    .more = MOVE_MORE
            "One of --plain and --checksum must be said. An entrance pupil of minus zero,\n"
            "60 40, comes out as +000.\n",
    .example = "heron-bench transfer --plain DAY >LINES",
    .done = "all done",
    .refused = "some refused or left out",
    .run = transfer_command,
};
