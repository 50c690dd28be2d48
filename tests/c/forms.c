/* The writers and readers of the three forms, with every refusal and the value that comes with it. */
#include "messages.h"

#include <inttypes.h>
#include <stdio.h>

/* ---- refusal 2: every length of lent memory around the needed one */

static void test_room(int f, bool checksum)
{
    contents c = example();
    message m = ended(forms[f].example, checksum);
    uint8_t contents_bytes[HERON_RECORD_BYTES];
    check_answer(forms[f].read(m.bytes, m.len, checksum, contents_bytes, sizeof contents_bytes), HERON_DONE,
                 forms[f].width, "an example read");
    for (size_t room = 0; room <= 200; room++)
        for (int e = AT_END; e <= AT_START; e++) {
            bool fits = room >= m.len;
            uint8_t *out = lend(room, (edge)e);
            check_answer(write_form(f, &c, checksum, out, room, (edge)e), fits ? HERON_DONE : HERON_ROOM, m.len,
                         "a writer's room");
            check(holds_only(out, m.bytes, fits ? m.len : 0), "%s: a writer with room for %zu", forms[f].name, room);

            fits = room >= forms[f].width;
            const uint8_t *given = hand_in(message_area, m.bytes, m.len, (edge)e);
            out = lend(room, (edge)e);
            check_answer(forms[f].read(given, m.len, checksum, out, room), fits ? HERON_DONE : HERON_ROOM, forms[f].width,
                         "a reader's room");
            check(holds_only(out, contents_bytes, fits ? forms[f].width : 0), "%s: a reader with room for %zu",
                  forms[f].name, room);
        }
}

/* ---- refusals 1 and 8: every field and item at its limits */

static void try_field(int field, int64_t value)
{
    char what[80];
    snprintf(what, sizeof what, "field %d of %" PRId64, field, value);
    for (int f = TEXT; f <= PACKED; f++) {
        contents c = example();
        set_field(&c.record, field, value);
        if (!in_range(field, value)) {
            expect_write_refused(f, &c, HERON_FIELD, (uint64_t)field, what);
            continue;
        }
        expect_round_trip(f, &c, false, what);
        expect_round_trip(f, &c, true, what);
    }
}

static void test_fields(void)
{
    for (int field = 1; field <= 11; field++) {
        int64_t low = ranges[field].low, high = ranges[field].high;
        const int64_t tried[] = {low, low + 1, high - 1, high, high + 1, high + 10, INT32_MAX};
        for (size_t i = 0; i < sizeof tried / sizeof tried[0]; i++)
            try_field(field, tried[i]);
        const int64_t far_off[] = {(int64_t)INT32_MAX + 1, UINT32_MAX}, below[] = {low - 1, INT32_MIN};
        for (int i = 0; i < 2; i++)
            try_field(field, field == 10 ? below[i] : far_off[i]);
    }
    for (int64_t stop = 0; stop <= 300; stop++)
        try_field(3, stop);

    /* The lowest: every field from this one on is wrong. */
    for (int lowest = 1; lowest <= 12; lowest++) {
        contents c = example();
        for (int field = lowest; field <= 11; field++)
            set_field(&c.record, field, INT32_MAX);
        c.serial.len = 8;
        for (int f = TEXT; f <= PACKED; f++)
            for (int i = 0; i < 12; i++)
                expect_write_refused(f, &c, HERON_FIELD, (uint64_t)lowest, "the lowest of several fields");
    }
}

/* A text of a form: another length, and every byte at every place. */
static void test_text(int f, int number, size_t len)
{
    uint8_t bytes[64];
    contents c = example();
    slice *text = number == 2 ? &c.owner : number == 8 ? &c.version : &c.serial;
    memset(bytes, 'x', sizeof bytes);
    for (size_t other = 0; other < sizeof bytes; other++) {
        *text = (slice){bytes, other};
        if (other != len)
            for (int i = 0; i < 12; i++)
                expect_write_refused(f, &c, forms[f].refusal, (uint64_t)number, "a text of another length");
    }
    for (size_t at = 0; at < len; at++)
        for (int byte = 0; byte < 256; byte++) {
            memset(bytes, 'x', len);
            bytes[at] = (uint8_t)byte;
            c = example();
            *text = (slice){bytes, len};
            if (byte < 0x20 || byte > 0x7E) {
                expect_write_refused(f, &c, forms[f].refusal, (uint64_t)number, "a text byte");
                continue;
            }
            memcpy(number == 2 ? c.fixed.owner : number == 8 ? c.fixed.version : f == FIXED ? c.fixed.serial : c.record.serial,
                   bytes, len);
            expect_round_trip(f, &c, byte % 2 == 0, "a text byte");
        }
}

static void test_items(void)
{
    test_text(FIXED, 1, HERON_SERIAL_LEN);
    test_text(FIXED, 2, HERON_OWNER_LEN);
    test_text(FIXED, 8, HERON_VERSION_LEN);
    for (int byte = 0; byte < 256; byte++) {
        contents kind = example(), letter = example();
        kind.fixed.kind = letter.fixed.letter = (uint8_t)byte;
        if (byte == 'P' || byte == 'Z')
            expect_round_trip(FIXED, &kind, true, "a lens type");
        else
            expect_write_refused(FIXED, &kind, HERON_SETTING, 3, "a lens type");
        if (byte == 'I' || byte == 'M' || byte == 'B' || byte == 'b')
            expect_round_trip(FIXED, &letter, true, "a start-up letter");
        else
            expect_write_refused(FIXED, &letter, HERON_SETTING, 6, "a start-up letter");
    }
    for (uint32_t n = 0; n <= 2000; n++) {
        uint32_t number = n == 2000 ? UINT32_MAX : n;
        contents c[3] = {example(), example(), example()};
        c[0].fixed.focal = c[1].fixed.maximum = c[2].fixed.transmission = number;
        static const uint64_t item[3] = {4, 5, 7};
        static const uint32_t most[3] = {999, 999, 99};
        for (int i = 0; i < 3; i++)
            if (number <= most[i])
                expect_round_trip(FIXED, &c[i], n % 2 == 0, "a number of the fixed data");
            else
                expect_write_refused(FIXED, &c[i], HERON_SETTING, item[i], "a number of the fixed data");
    }
    for (uint64_t lowest = 1; lowest <= 8; lowest++) {
        contents c = example();
        c.version.len = 3;
        if (lowest <= 7) c.fixed.transmission = 100;
        if (lowest <= 6) c.fixed.letter = 'i';
        if (lowest <= 5) c.fixed.maximum = 1000;
        if (lowest <= 4) c.fixed.focal = 1000;
        if (lowest <= 3) c.fixed.kind = 'p';
        if (lowest <= 2) c.owner.len = 30;
        if (lowest <= 1) c.serial.len = 8;
        for (int i = 0; i < 12; i++)
            expect_write_refused(FIXED, &c, HERON_SETTING, lowest, "the lowest of several items");
    }
}

/* ---- refusals 3 to 6 */

static void expect_refused(int f, slice m, bool checksum, uint32_t number, uint64_t value, const char *what)
{
    bool once = number == HERON_END || number == HERON_CHECKSUM;
    for (int i = 0; i < (once ? 1 : 6); i++)
        expect_read_refused(f, m, checksum, number, value, what);
}

static bool accepts(int f, const message *m, bool checksum, uint64_t part)
{
    contents c;
    heron_answer answer = read_exactly(f, m, checksum, &c);
    if (answer.number == HERON_DONE)
        return true;
    check_answer(answer, HERON_CONTENTS, part, forms[f].name);
    expect_read_refused(f, (slice){m->bytes, m->len}, checksum, HERON_CONTENTS, part, forms[f].name);
    return false;
}

static void test_messages(int f, bool checksum)
{
    const message m = ended(forms[f].example, checksum);
    expect_frame(expect_refused, f, &m, checksum, "");
    size_t len = expect_contents(accepts, expect_refused, f, checksum);
    check(len == forms[f].example.len, "%s: the parts are %zu bytes", forms[f].name, len);
}

/* ---- request 5: minus zero is 0, and nothing beside it is */

static void try_pupil(int f, const char *bytes, bool accepted, int32_t pupil)
{
    for (int checksum = 0; checksum < 2; checksum++) {
        message m = ended(forms[f].example, checksum != 0);
        memcpy(m.bytes + pupils[f].at, bytes, pupils[f].len);
        if (checksum) {
            /* The example's checksum, then that of the same record with plus zero. */
            expect_read_refused(f, (slice){m.bytes, m.len}, true, HERON_CHECKSUM, 0, "a pupil under the example's checksum");
            message plus = m;
            memcpy(plus.bytes + pupils[f].at, pupils[f].plus, pupils[f].len);
            put_sum(&plus);
            if (memcmp(plus.bytes, m.bytes, m.len - 4) != 0) {
                memcpy(m.bytes + m.len - 4, plus.bytes + m.len - 4, 2);
                expect_read_refused(f, (slice){m.bytes, m.len}, true, HERON_CHECKSUM, 0, "a pupil under the checksum of plus zero");
            }
            put_sum(&m);
        }
        contents c = example();
        heron_answer answer = read_exactly(f, &m, checksum != 0, &c);
        check_answer(answer, accepted ? HERON_DONE : HERON_CONTENTS, accepted ? forms[f].width : 10, "a pupil");
        check(!accepted || c.record.pupil == pupil, "%s: a pupil read as %" PRId32 ", not %" PRId32, forms[f].name,
              c.record.pupil, pupil);
    }
}

static void test_minus_zero(void)
{
    static const struct {
        int form;
        const char *bytes;
        bool accepted;
        int32_t pupil;
    } tried[] = {
        {TEXT, "E-000", true, 0},       {TEXT, "E+000", true, 0},        {TEXT, "E-001", true, -1},
        {TEXT, "E-010", true, -10},     {TEXT, "E-100", true, -100},     {TEXT, "E-999", true, -999},
        {TEXT, "E 000", false, 0},      {TEXT, "E0000", false, 0},       {TEXT, "E-00:", false, 0},
        {TEXT, "E-00 ", false, 0},      {TEXT, "e-000", false, 0},       {TEXT, "E--00", false, 0},
        {PACKED, "\x60\x40", true, 0},  {PACKED, "\x40\x40", true, 0},   {PACKED, "\x60\x41", true, -1},
        {PACKED, "\x61\x40", true, -64}, {PACKED, "\x6F\x67", true, -999}, {PACKED, "\x6F\x68", false, 0},
        {PACKED, "\x70\x40", false, 0}, {PACKED, "\x50\x40", false, 0},  {PACKED, "\x20\x40", false, 0},
        {PACKED, "\xE0\x40", false, 0}, {PACKED, "\x60\xC0", false, 0},  {PACKED, "\x60\x80", false, 0},
    };
    for (size_t i = 0; i < sizeof tried / sizeof tried[0]; i++)
        try_pupil(tried[i].form, tried[i].bytes, tried[i].accepted, tried[i].pupil);
}

void test_forms(void)
{
    for (int f = 0; f < FORMS; f++)
        for (int checksum = 0; checksum <= 1; checksum++) {
            test_room(f, checksum);
            test_messages(f, checksum);
        }
    test_fields();
    test_text(TEXT, 12, HERON_SERIAL_LEN);
    test_text(PACKED, 12, HERON_SERIAL_LEN);
    test_items();
    test_minus_zero();
}
