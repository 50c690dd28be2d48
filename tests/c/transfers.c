/* Request 7: packed records as text, by both routes. */
#include "messages.h"

#include <inttypes.h>
#include <stdio.h>

static const struct {
    const char *name;
    reader make;
} routes[] = {{"straight", heron_packed_to_text}, {"by record", heron_packed_to_text_by_record}};

enum { ROUTES = sizeof routes / sizeof routes[0] };

/* Read, then written, by the entries for that. */
static heron_answer read_and_write(slice packed, bool checksum, uint8_t *out, size_t room)
{
    heron_record r;
    heron_answer answer = heron_record_from_packed(packed.bytes, packed.len, checksum, &r);
    return answer.number == HERON_DONE ? heron_record_to_text(&r, checksum, out, room) : answer;
}

/* Turns a message to text: read and written, and by each route with every slice between its pages. Done, the lent memory holds right
 * and nothing else is touched; refused, nothing is. */
static void expect_transfer(slice packed, bool checksum, size_t room, uint32_t number, uint64_t value, const message *right,
                            const char *what)
{
    uint8_t written[200];
    check_answer(read_and_write(packed, checksum, written, room), number, value, what);
    check(number != HERON_DONE || memcmp(written, right->bytes, right->len) == 0, "read and written: %s: other bytes", what);
    edge e = next_edge();
    const uint8_t *m = hand_in(message_area, packed.bytes, packed.len, e);
    for (int i = 0; i < ROUTES; i++) {
        uint8_t *out = lend(room, e);
        check_answer(routes[i].make(m, packed.len, checksum, out, room), number, value, what);
        check(number == HERON_DONE ? holds_only(out, right->bytes, right->len) : holds_only(out, NULL, 0), "%s: %s: other bytes",
              routes[i].name, what);
    }
}

/* With room for nothing, for the text and for more. */
static void expect_no_transfer(const message *packed, bool checksum, uint32_t number, uint64_t value, const char *what)
{
    const size_t rooms[] = {0, checksum ? HERON_TEXT_LEN_CHECKSUM : HERON_TEXT_LEN, 200};
    for (int i = 0; i < 3; i++)
        expect_transfer((slice){packed->bytes, packed->len}, checksum, rooms[i], number, value, NULL, what);
}

/* A number in groups of six bits. */
static unsigned groups(const uint8_t *bytes, size_t len)
{
    unsigned n = 0;
    for (size_t i = 0; i < len; i++)
        n = 64 * n + bytes[i] % 64;
    return n;
}

/* The text of a packed record that nothing is wrong with, worked out here by the paper's rules. */
static message text_of(const uint8_t *packed, bool checksum)
{
    char body[200], stop_text[16];
    unsigned stop = packed[7] % 128u + (packed[8] & 0x40u) * 2, view = groups(packed + 23, 2);
    unsigned pupil = packed[25] % 16u * 64 + packed[26] % 64u;
    if (stop < 100)
        snprintf(stop_text, sizeof stop_text, "%u.%u", stop / 10, stop % 10);
    else
        snprintf(stop_text, sizeof stop_text, "%u.", stop / 10);
    int len = snprintf(body, sizeof body, "D%07uT%04ut%s+%uZ%04uH%07uN%07uF%07uV%03u.%uE%c%03uz%04uS%.9s", groups(packed + 1, 4),
                       groups(packed + 5, 2), stop_text, packed[8] % 16u, groups(packed + 9, 2), groups(packed + 11, 4),
                       groups(packed + 15, 4), groups(packed + 19, 4), view / 10, view % 10,
                       (packed[25] & 0x20) != 0 && pupil != 0 ? '-' : '+', pupil, groups(packed + 27, 2), (const char *)packed + 30);
    check(len == HERON_TEXT_LEN - 2, "the text of a packed record has %d bytes", len);
    return ended((slice){(const uint8_t *)body, HERON_TEXT_LEN - 2}, checksum);
}

/* A message that nothing is wrong with, into exactly the bytes that it takes. */
static void expect_transferred(const message *packed, bool checksum, const char *what)
{
    message right = text_of(packed->bytes, checksum);
    expect_transfer((slice){packed->bytes, packed->len}, checksum, right.len, HERON_DONE, right.len, &right, what);
}

static void expect_refused(int f, slice m, bool checksum, uint32_t number, uint64_t value, const char *what)
{
    (void)f; /* packed */
    for (int i = 0; i < (number == HERON_LENGTH ? 5 : number == HERON_CONTENTS ? 3 : 1); i++) {
        size_t room = number == HERON_END ? 200 : next_room(checksum ? HERON_TEXT_LEN_CHECKSUM : HERON_TEXT_LEN);
        expect_transfer(m, checksum, room, number, value, NULL, what);
    }
}

static bool accepts(int f, const message *m, bool checksum, uint64_t part)
{
    uint8_t contents_bytes[HERON_RECORD_BYTES];
    if (heron_read_packed(m->bytes, m->len, checksum, contents_bytes, sizeof contents_bytes).number == HERON_DONE) {
        expect_transferred(m, checksum, "a byte changed");
        return true;
    }
    expect_refused(f, (slice){m->bytes, m->len}, checksum, HERON_CONTENTS, part, "a byte changed");
    return false;
}

/* Room of every length; messages that are refused, also those of the other setting. */
static void test_transfer_messages(bool checksum)
{
    message m = ended(forms[PACKED].example, checksum), right = ended(forms[TEXT].example, checksum);
    for (size_t room = 0; room <= 200; room++)
        for (int i = 0; i < 2; i++) {
            bool fits = room >= right.len;
            expect_transfer((slice){m.bytes, m.len}, checksum, room, fits ? HERON_DONE : HERON_ROOM, right.len, &right, "room");
        }
    expect_frame(expect_refused, PACKED, &m, checksum, "\n\r");
    message other = ended(forms[PACKED].example, !checksum);
    expect_no_transfer(&other, checksum, HERON_LENGTH, other.len, "the other checksum mode");
    expect_contents(accepts, expect_refused, PACKED, checksum);
}

/* Every set of faults, each field the wrong one. */
static void test_transfer_order(bool checksum)
{
    /* In the order in which they are told. */
    enum { OF_LENGTH = 1, OF_END = 2, OF_SUM = 4, OF_CONTENTS = 8, OF_ROOM = 16, ALL = 31 };
    size_t field_at = 0;
    for (int field = 1; field <= forms[PACKED].parts; field_at += forms[PACKED].part[field++ - 1])
        for (int faults = 0; faults <= ALL; faults++) {
            if (!checksum && (faults & OF_SUM))
                continue;
            message m = ended(forms[PACKED].example, checksum), right = ended(forms[TEXT].example, checksum);
            size_t room = right.len;
            heron_answer told = {HERON_DONE, right.len};
            /* From the last to the first, which stands. */
            if (faults & OF_ROOM) {
                room--;
                told = (heron_answer){HERON_ROOM, right.len};
            }
            if (faults & OF_CONTENTS) {
                m.bytes[field_at] = '?';
                if (checksum)
                    put_sum(&m);
                told = (heron_answer){HERON_CONTENTS, (uint64_t)field};
            }
            if (faults & OF_SUM) {
                m.bytes[m.len - 3] ^= 1;
                told = (heron_answer){HERON_CHECKSUM, 0};
            }
            if (faults & OF_END) {
                m.bytes[m.len - 1] = '\n';
                told = (heron_answer){HERON_END, 0};
            }
            if (faults & OF_LENGTH) {
                m.len--;
                told = (heron_answer){HERON_LENGTH, m.len};
            }
            for (int i = 0; i < 2; i++)
                expect_transfer((slice){m.bytes, m.len}, checksum, room, told.number, told.value, &right, "several faults");
        }
}

/* The next value that is tried of a field: of distances not every one. */
static int64_t next_value(int field, int64_t value)
{
    int64_t high = ranges[field].high, next = value + 1 + (high == 9999999 ? value / 50 : 0);
    return value < high && next > high ? high : next;
}

/* The values of each field, in a record in which no two fields are alike. */
static void test_transfer_values(bool checksum)
{
    for (int field = 1; field <= 11; field++)
        for (int64_t value = ranges[field].low; value <= ranges[field].high; value = next_value(field, value)) {
            heron_record r = {1234567, 2345, 34, 4, 567, 6789012, 7890123, 8901234, 912, -103, 114, {0}};
            memcpy(r.serial, "S d 1.z~!", sizeof r.serial);
            set_field(&r, field, value);
            message m = {{0}, checksum ? HERON_PACKED_LEN_CHECKSUM : HERON_PACKED_LEN};
            if (!in_range(field, value))
                continue;
            check_answer(heron_record_to_packed(&r, checksum, m.bytes, m.len), HERON_DONE, m.len, "a record packed");
            expect_transferred(&m, checksum, "a value");
        }
}

/* Minus zero comes out as plus, under the checksum of the plus form; all else as it is. */
static void test_transfer_pupils(bool checksum)
{
    static const struct {
        const char *packed, *text; /* NULL: refused */
    } tried[] = {
        {"\x60\x40", "E+000"}, {"\x40\x40", "E+000"}, {"\x60\x41", "E-001"}, {"\x40\x41", "E+001"}, {"\x60\x65", "E-037"},
        {"\x61\x40", "E-064"}, {"\x6F\x67", "E-999"}, {"\x4F\x67", "E+999"}, {"\x6F\x68", NULL},    {"\x70\x40", NULL},
        {"\x50\x40", NULL},    {"\x20\x40", NULL},    {"\xE0\x40", NULL},    {"\x60\xC0", NULL},    {"\x60\x80", NULL},
    };
    for (size_t i = 0; i < sizeof tried / sizeof tried[0]; i++) {
        message m = ended(forms[PACKED].example, checksum), right = ended(forms[TEXT].example, checksum);
        memcpy(m.bytes + pupils[PACKED].at, tried[i].packed, pupils[PACKED].len);
        if (tried[i].text != NULL)
            memcpy(right.bytes + pupils[TEXT].at, tried[i].text, pupils[TEXT].len);
        if (checksum) {
            put_sum(&m);
            put_sum(&right);
        }
        if (tried[i].text != NULL)
            expect_transfer((slice){m.bytes, m.len}, checksum, right.len, HERON_DONE, right.len, &right, "a pupil");
        else
            expect_no_transfer(&m, checksum, HERON_CONTENTS, 10, "no pupil");
    }
}

void test_transfers(void)
{
    for (int checksum = 0; checksum <= 1; checksum++) {
        test_transfer_messages(checksum);
        test_transfer_order(checksum);
        test_transfer_values(checksum);
        test_transfer_pupils(checksum);
    }
}

/* Packed records with up to two bytes changed, into memory of any length: the routes answer as what is read and written. */
void test_random_transfers(unsigned long cases)
{
    for (unsigned long i = 0; i < cases; i++) {
        contents c = random_contents();
        bool checksum = i % 2 == 1;
        message m = {{0}, checksum ? HERON_PACKED_LEN_CHECKSUM : HERON_PACKED_LEN}, right = {{0}, 0};
        check_answer(heron_record_to_packed(&c.record, checksum, m.bytes, m.len), HERON_DONE, m.len, "a record packed");
        for (uint32_t changes = random_below(3); changes > 0; changes--)
            m.bytes[random_below((uint32_t)m.len)] = (uint8_t)random_next();
        if (checksum && random_below(4) > 0)
            put_sum(&m);
        uint8_t written[200];
        size_t room = random_below(4) == 0 ? random_below(sizeof written) : HERON_LONGEST;
        heron_answer answer = read_and_write((slice){m.bytes, m.len}, checksum, written, room);
        if (answer.number == HERON_DONE) {
            right = text_of(m.bytes, checksum);
            check(answer.value == right.len, "case %lu: a record is written in %" PRIu64 " bytes", i, answer.value);
        }
        expect_transfer((slice){m.bytes, m.len}, checksum, room, answer.number, answer.value, &right, "a random record");
    }
}
