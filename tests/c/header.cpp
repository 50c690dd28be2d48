// The header from C++: a record through both forms, from one to the other, to the old one and back, and fixed data through theirs, a stream through each
// cutter and a recorder. Exit status 1 if something comes back otherwise.
#include <hourheron.h>

// One message in two pieces, by the entry that is named; then the cutter is as a fresh one.
template <typename Cut> static bool cuts(const uint8_t *message, size_t len, size_t contents, Cut cut)
{
    heron_cutter cutter = {}, fresh = {};
    uint8_t out[HERON_CUTTER_LEN];
    heron_cut first = cut(&cutter, message, len - 1, out, sizeof out);
    heron_cut last = cut(&cutter, message + len - 1, 1, out, sizeof out);
    return !first.ended && first.used == len - 1 && last.ended && last.used == 1 && last.number == HERON_DONE && last.value == contents &&
           memcmp(&cutter, &fresh, sizeof fresh) == 0;
}

static bool cuts_text(const uint8_t *message, size_t len)
{
    return cuts(message, len, HERON_RECORD_BYTES, [](heron_cutter *c, const uint8_t *p, size_t n, uint8_t *out, size_t room) {
        return heron_cut_text(c, p, n, true, out, room);
    });
}

static bool cuts_packed(const uint8_t *message, size_t len)
{
    return cuts(message, len, HERON_RECORD_BYTES, [](heron_cutter *c, const uint8_t *p, size_t n, uint8_t *out, size_t room) {
        return heron_cut_packed(c, p, n, false, out, room);
    });
}

static bool cuts_fixed(const uint8_t *message, size_t len)
{
    return cuts(message, len, HERON_FIXED_BYTES, [](heron_cutter *c, const uint8_t *p, size_t n, uint8_t *out, size_t room) {
        return heron_cut_fixed(c, p, n, true, out, room);
    });
}

// A recorder asks for fixed data, takes it, then a record.
static bool records(heron_recorder recorder, const heron_fixed &fixed, const heron_record &record)
{
    uint8_t message[HERON_LONGEST], out[HERON_RECORD_BYTES];
    if (heron_recorder_send(&recorder, out, sizeof out).value != HERON_SEND_LEN || memcmp(out, "N\r", HERON_SEND_LEN) != 0)
        return false;
    size_t len = heron_fixed_to_message(&fixed, false, message, sizeof message).value;
    heron_recorded taken = heron_recorder_take(&recorder, message, len, out, sizeof out);
    if (taken.number != HERON_DONE || !taken.ended || !taken.opening || taken.used != len)
        return false;
    len = heron_record_to_text(&record, false, message, sizeof message).value;
    taken = heron_recorder_take(&recorder, message, len, out, sizeof out);
    return taken.number == HERON_DONE && taken.ended && !taken.opening && heron_record_unpack(out).focus == record.focus;
}

// A plain text record whose zoom can be moved: to the old form, and to the present one again.
static bool moves(const heron_record &record)
{
    uint8_t message[HERON_LONGEST], old[HERON_OLD_LEN], again[HERON_TEXT_LEN];
    size_t len = heron_record_to_text(&record, false, message, sizeof message).value;
    return heron_new_to_old(message, len, old, sizeof old).value == sizeof old &&
           heron_old_to_new(old, sizeof old, record.serial, sizeof record.serial, again, sizeof again).value == len &&
           memcmp(again, message, len) == 0;
}

// A packed record as text, by both routes: what is written of the record.
static bool transfers(const heron_record &record, bool checksum)
{
    uint8_t packed[HERON_LONGEST], text[HERON_LONGEST], straight[HERON_LONGEST], by_record[HERON_LONGEST];
    size_t len = heron_record_to_packed(&record, checksum, packed, sizeof packed).value;
    size_t text_len = heron_record_to_text(&record, checksum, text, sizeof text).value;
    return heron_packed_to_text(packed, len, checksum, straight, sizeof straight).value == text_len &&
           heron_packed_to_text_by_record(packed, len, checksum, by_record, sizeof by_record).value == text_len &&
           memcmp(straight, text, text_len) == 0 && memcmp(by_record, text, text_len) == 0;
}

int main()
{
    heron_record record = {798, 680, 56, 5, 0, 6123, 711, 909, 273, -23, 0, {'4', '0', '5', '0', '.', '0', '0', '9', '3'}};
    heron_record text, packed;
    uint8_t message[HERON_LONGEST];

    heron_answer written = heron_record_to_text(&record, true, message, sizeof message);
    if (written.number != HERON_DONE || heron_record_from_text(message, written.value, true, &text).number != HERON_DONE)
        return 1;
    if (!cuts_text(message, written.value) || !cuts(message, written.value, written.value, heron_cut_message))
        return 1;
    written = heron_record_to_packed(&text, false, message, sizeof message);
    if (written.number != HERON_DONE || heron_record_from_packed(message, written.value, false, &packed).number != HERON_DONE)
        return 1;
    if (!cuts_packed(message, written.value) || !moves(record) || !transfers(record, false) || !transfers(record, true))
        return 1;

    heron_fixed fixed = {{'s', 'e', 'r', 'i', 'a', 'l', ' ', ' ', '1'}, {}, 'Z', 18, 100, 'b', 95, {'4', '.', '3', '4'}};
    memset(fixed.owner, ' ', sizeof fixed.owner);
    heron_fixed back;
    written = heron_fixed_to_message(&fixed, true, message, sizeof message);
    if (written.number != HERON_DONE || heron_fixed_from_message(message, written.value, true, &back).number != HERON_DONE)
        return 1;
    if (!cuts_fixed(message, written.value))
        return 1;
    if (!records(heron_recorder_first(), fixed, record) || !records(heron_recorder_start(false, false), fixed, record))
        return 1;

    bool same = packed.focus == 798 && packed.pupil == -23 && memcmp(packed.serial, record.serial, sizeof record.serial) == 0 &&
                back.maximum == 100 && back.letter == 'b' && memcmp(back.owner, fixed.owner, sizeof fixed.owner) == 0;
    return same ? 0 : 1;
}
