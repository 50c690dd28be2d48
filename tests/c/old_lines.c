/* Request 6: old lines in the present form, and back. */
#include "messages.h"

#include <ctype.h>
#include <stdio.h>

typedef enum { FORWARD, BACK, WAYS } way;

/* Of a line that is moved this way: its length, that of what it becomes, and how many fields it has. Their widths are the text form's. */
static const struct {
    const char *name;
    size_t len, moved;
    int parts;
} ways[WAYS] = {{"forward", HERON_OLD_LEN, HERON_TEXT_LEN, 11}, {"back", HERON_TEXT_LEN, HERON_OLD_LEN, 12}};

/* Where zoom and serial stand, tags counted; what the moves below add. */
enum { ZOOM_AT = 59, SERIAL_AT = 64 };
static const slice given_serial = {(const uint8_t *)"4050.0093", HERON_SERIAL_LEN};

/* The example with this pupil, and these bytes from the zoom on. */
static message line_of(const char *pupil, const char *rest)
{
    char body[HERON_LONGEST];
    int len = snprintf(body, sizeof body, "%.54s%s%s", (const char *)forms[TEXT].example.bytes, pupil, rest);
    return ended((slice){(const uint8_t *)body, (size_t)len}, false);
}

static message old_line(const char *pupil, unsigned hundredths)
{
    char rest[32];
    snprintf(rest, sizeof rest, "z%u.%02u", hundredths / 100, hundredths % 100);
    return line_of(pupil, rest);
}

static message new_line(const char *pupil, unsigned thousandths)
{
    char rest[32];
    snprintf(rest, sizeof rest, "z%04uS4050.0093", thousandths);
    return line_of(pupil, rest);
}

/* Moves a line, every slice between its pages. Done, the lent memory holds right and nothing else is touched; refused, nothing is. */
static void expect_move(way w, slice line, slice serial, size_t room, uint32_t number, uint64_t value, const message *right,
                        const char *what)
{
    edge e = next_edge();
    const uint8_t *m = hand_in(message_area, line.bytes, line.len, e);
    const uint8_t *s = hand_in(serial_area, serial.bytes, serial.len, e);
    uint8_t *out = lend(room, e);
    check_answer(w == FORWARD ? heron_old_to_new(m, line.len, s, serial.len, out, room) : heron_new_to_old(m, line.len, out, room),
                 number, value, what);
    check(number == HERON_DONE ? holds_only(out, right->bytes, right->len) : holds_only(out, NULL, 0), "%s: %s: other bytes",
          ways[w].name, what);
}

static void expect_moved(way w, const message *line, const message *right, const char *what)
{
    expect_move(w, (slice){line->bytes, line->len}, given_serial, ways[w].moved, HERON_DONE, ways[w].moved, right, what);
}

/* With room for nothing, for the moved line and for more. */
static void expect_not_moved(way w, const message *line, uint32_t number, uint64_t value, const char *what)
{
    const size_t rooms[] = {0, ways[w].moved, 200};
    for (int i = 0; i < 3; i++)
        expect_move(w, (slice){line->bytes, line->len}, given_serial, rooms[i], number, value, NULL, what);
}

static void expect_d_reader_refuses_old(const message *line)
{
    for (int i = 0; i < 6; i++)
        expect_read_refused(TEXT, (slice){line->bytes, line->len}, i % 2 == 1, HERON_LENGTH, HERON_OLD_LEN, "an old line for the D reader");
}

/* Every zoom of either form, in range and past it; what can be moved comes back as it was. */
static void test_zooms(void)
{
    for (unsigned n = 0; n <= 999; n++) {
        message old = old_line("E-023", n), new = new_line("E-023", 10 * n);
        expect_d_reader_refuses_old(&old);
        if (n <= 100) {
            expect_moved(FORWARD, &old, &new, "a zoom");
            expect_moved(BACK, &new, &old, "a zoom");
        } else {
            expect_not_moved(FORWARD, &old, HERON_CONTENTS, 11, "a zoom past 1.00");
        }
    }
    for (unsigned n = 0; n <= 9999; n++) {
        message old = old_line("E+023", n / 10 % 1000), new = new_line("E+023", n);
        if (n > 1000)
            expect_not_moved(BACK, &new, HERON_CONTENTS, 11, "a zoom past 1000");
        else if (n % 10 == 0)
            expect_moved(BACK, &new, &old, "a zoom");
        else
            expect_not_moved(BACK, &new, HERON_LOST, 0, "thousandths");
    }
    static const char *const others[] = {"z.570", "z057.", "z00.5", "z0570", "z0,57", "z0.5 ", "z0.:7", "z0.5/", "z 1.0", "z-.57",
                                         "z+.57", "z1.01", "z1.10", "z2.00", "z9.99", "zO.57", "z0.5x", "Z0.57", "z0..5", "z...."};
    for (size_t i = 0; i < sizeof others / sizeof others[0]; i++) {
        message old = line_of("E+023", others[i]);
        expect_not_moved(FORWARD, &old, HERON_CONTENTS, 11, others[i]);
    }
}

/* The sign of zero is all that changes beside zoom and serial. */
static void test_moved_pupils(void)
{
    static const char *const tried[] = {"E+000", "E-000", "E-001", "E+001", "E-010", "E-100", "E-999", "E+999"};
    for (size_t i = 0; i < sizeof tried / sizeof tried[0]; i++) {
        bool minus_zero = strcmp(tried[i], "E-000") == 0;
        const char *comes = minus_zero ? "E+000" : tried[i];
        message old = old_line(tried[i], 57), new = new_line(tried[i], 570);
        message comes_old = old_line(comes, 57), comes_new = new_line(comes, 570);
        expect_moved(FORWARD, &old, &comes_new, "a pupil");
        expect_moved(BACK, &new, &comes_old, "a pupil");
        message lost = new_line(tried[i], 571);
        expect_not_moved(BACK, &lost, HERON_LOST, 0, "a pupil beside thousandths");
    }
    static const char *const refused[] = {"E 000", "E0000", "E-00:", "e-000", "E--00", "E\255000"};
    for (size_t i = 0; i < sizeof refused / sizeof refused[0]; i++) {
        message old = old_line(refused[i], 57), new = new_line(refused[i], 570);
        expect_not_moved(FORWARD, &old, HERON_CONTENTS, 10, "no pupil");
        expect_not_moved(BACK, &new, HERON_CONTENTS, 10, "no pupil");
    }
}

static way other_way(way w)
{
    return w == FORWARD ? BACK : FORWARD;
}

static message example_line(way w)
{
    return w == FORWARD ? old_line("E+023", 57) : new_line("E+023", 570);
}

/* Where a field stands, its tag counted. */
static size_t part_start(int field)
{
    size_t at = 0;
    for (int part = 1; part < field; part++)
        at += forms[TEXT].part[part - 1];
    return at;
}

static void expect_refused(int w, slice line, bool checksum, uint32_t number, uint64_t value, const char *what)
{
    (void)checksum; /* a line has none */
    for (int i = 0; i < (number == HERON_LENGTH ? 3 : 1); i++)
        expect_move((way)w, line, given_serial, number == HERON_END ? 200 : next_room(ways[w].moved), number, value, NULL, what);
}

/* Room of every length; every other length of the line; every other pair of last bytes, before what else is wrong. */
static void test_moved_frame(way w)
{
    message m = example_line(w), right = example_line(other_way(w));
    for (size_t room = 0; room <= 200; room++)
        for (int i = 0; i < 2; i++) {
            bool fits = room >= right.len;
            expect_move(w, (slice){m.bytes, m.len}, given_serial, room, fits ? HERON_DONE : HERON_ROOM, right.len, &right, "room");
        }
    expect_frame(expect_refused, (int)w, &m, false, "\n\r");
}

/* The zoom of an old line, by the paper's rule. */
static bool old_zoom_ok(const uint8_t *zoom)
{
    bool digits = isdigit(zoom[1]) && isdigit(zoom[3]) && isdigit(zoom[4]);
    return zoom[0] == 'z' && zoom[2] == '.' && digits && (zoom[1] == '0' || memcmp(zoom + 1, "1.00", 4) == 0);
}

/* A line with one byte changed. Beside an old line's zoom a field is wrong where the D reader says so of the present form. Returns whether
 * the field is right. */
static bool try_byte(way w, int field, size_t at, uint8_t byte)
{
    message m = example_line(w), new = example_line(BACK), right = example_line(other_way(w));
    m.bytes[at] = byte;
    bool of_old_zoom = w == FORWARD && field == 11;
    if (of_old_zoom)
        memcpy(new.bytes + ZOOM_AT, (uint8_t[]){'z', m.bytes[60], m.bytes[62], m.bytes[63], '0'}, 5);
    else
        new.bytes[at] = byte;
    uint8_t contents_bytes[HERON_RECORD_BYTES];
    heron_answer answer = heron_read_text(new.bytes, new.len, false, contents_bytes, sizeof contents_bytes);
    if (of_old_zoom ? !old_zoom_ok(m.bytes + ZOOM_AT) : answer.number != HERON_DONE) {
        expect_not_moved(w, &m, HERON_CONTENTS, (uint64_t)field, "a byte changed");
        return false;
    }
    if (w == BACK && new.bytes[ZOOM_AT + 4] != '0') {
        expect_not_moved(w, &m, HERON_LOST, 0, "a byte changed");
        return true;
    }
    if (at < ZOOM_AT)
        right.bytes[at] = byte;
    else if (w == FORWARD)
        right = new;
    else
        memcpy(right.bytes + ZOOM_AT, (uint8_t[]){'z', new.bytes[60], '.', new.bytes[61], new.bytes[62]}, 5);
    expect_moved(w, &m, &right, "a byte changed");
    return true;
}

/* Every byte at every place, and the first of two wrong fields. */
static void test_moved_contents(way w)
{
    for (int field = 1; field <= ways[w].parts; field++) {
        unsigned accepted = 0, refused = 0;
        for (size_t at = part_start(field); at < part_start(field + 1); at++)
            for (int byte = 0; byte < 256; byte++)
                if (try_byte(w, field, at, (uint8_t)byte))
                    accepted++;
                else
                    refused++;
        check(accepted > forms[TEXT].part[field - 1] && refused > 0, "%s: field %d: %u accepted, %u refused", ways[w].name, field,
              accepted, refused);
        for (int second = field; second <= ways[w].parts; second++) {
            message m = example_line(w);
            m.bytes[part_start(field)] = m.bytes[part_start(second)] = 0;
            expect_not_moved(w, &m, HERON_CONTENTS, (uint64_t)field, "the first of two wrong fields");
        }
    }
    check(part_start(ways[w].parts + 1) == ways[w].len - 2, "%s: the fields have another length", ways[w].name);
}

/* The limits of fields, and the stop's two forms. */
static void test_moved_limits(way w)
{
    static const struct {
        int field;
        const char *bytes;
        bool moved;
    } tried[] = {
        {1, "D0000000", true}, {1, "D9999999", true}, {2, "T4095", true},    {2, "T4096", false},   {2, "T9999", false},
        {3, "t0.0", true},     {3, "t9.9", true},     {3, "t10.", true},     {3, "t25.", true},     {3, "t26.", false},
        {3, "t99.", false},    {3, "t09.", false},    {3, "t.56", false},    {3, "t056", false},    {3, "t 8+", false},
        {4, "+0", true},       {4, "+9", true},       {4, "-5", false},      {5, "Z1023", true},    {5, "Z1024", false},
        {5, "Z9999", false},   {6, "H9999999", true}, {7, "N9999999", true}, {8, "F9999999", true}, {9, "V000.0", true},
        {9, "V409.5", true},   {9, "V409.6", false},  {9, "V999.9", false},  {9, "V27.30", false},  {9, "V02730", false},
    };
    for (size_t i = 0; i < sizeof tried / sizeof tried[0]; i++) {
        message m = example_line(w), right = example_line(other_way(w));
        memcpy(m.bytes + part_start(tried[i].field), tried[i].bytes, strlen(tried[i].bytes));
        memcpy(right.bytes + part_start(tried[i].field), tried[i].bytes, strlen(tried[i].bytes));
        if (tried[i].moved)
            expect_moved(w, &m, &right, tried[i].bytes);
        else
            expect_not_moved(w, &m, HERON_CONTENTS, (uint64_t)tried[i].field, tried[i].bytes);
    }
}

/* Faults, in the order in which they are told. The fourth is the serial, or back the thousandths. */
enum { LENGTH_WRONG = 1, END_WRONG = 2, CONTENTS_WRONG = 4, FOURTH_WRONG = 8, ROOM_WRONG = 16, ALL_WRONG = 31 };

static void try_faults(way w, int faults, int field, slice wrong_serial)
{
    message m = example_line(w), right = example_line(other_way(w));
    slice serial = given_serial;
    size_t room = right.len;
    heron_answer told = {HERON_DONE, right.len};
    /* From the last to the first, which stands. */
    if (faults & ROOM_WRONG) {
        room--;
        told = (heron_answer){HERON_ROOM, right.len};
    }
    if ((faults & FOURTH_WRONG) && w == FORWARD) {
        serial = wrong_serial;
        told = (heron_answer){HERON_FIELD, 12};
    } else if (faults & FOURTH_WRONG) {
        m = new_line("E+023", 575);
        told = (heron_answer){HERON_LOST, 0};
    }
    if (faults & CONTENTS_WRONG) {
        m.bytes[part_start(field)] = '?';
        told = (heron_answer){HERON_CONTENTS, (uint64_t)field};
    }
    if (faults & END_WRONG) {
        m.bytes[m.len - 1] = '\n';
        told = (heron_answer){HERON_END, 0};
    }
    if (faults & LENGTH_WRONG) {
        m.len--;
        told = (heron_answer){HERON_LENGTH, m.len};
    }
    expect_move(w, (slice){m.bytes, m.len}, serial, room, told.number, told.value, &right, "several faults");
}

/* Every set of faults, each field the wrong one. */
static void test_moved_order(way w)
{
    for (int faults = 0; faults <= ALL_WRONG; faults++)
        for (int field = 1; field <= ways[w].parts; field++) {
            try_faults(w, faults, field, (slice){given_serial.bytes, 8});
            try_faults(w, faults, field, TEXT_SLICE("4050.009\x7F"));
        }
}

/* Serials of every other length, and every byte at every place of one. */
static void test_given_serials(void)
{
    uint8_t bytes[64];
    message old = example_line(FORWARD);
    memset(bytes, 'x', sizeof bytes);
    for (size_t len = 0; len < sizeof bytes; len++)
        for (size_t room = 0; len != HERON_SERIAL_LEN && room <= 200; room += 50)
            expect_move(FORWARD, (slice){old.bytes, old.len}, (slice){bytes, len}, room, HERON_FIELD, 12, NULL, "a serial's length");
    for (size_t at = 0; at < HERON_SERIAL_LEN; at++)
        for (int byte = 0; byte < 256; byte++) {
            bool text = byte >= 0x20 && byte <= 0x7E;
            message right = example_line(BACK);
            memset(bytes, 'x', HERON_SERIAL_LEN);
            bytes[at] = (uint8_t)byte;
            memcpy(right.bytes + SERIAL_AT + 1, bytes, HERON_SERIAL_LEN);
            expect_move(FORWARD, (slice){old.bytes, old.len}, (slice){bytes, HERON_SERIAL_LEN}, HERON_TEXT_LEN,
                        text ? HERON_DONE : HERON_FIELD, text ? HERON_TEXT_LEN : 12, &right, "a serial's byte");
            if (text)
                expect_moved(BACK, &right, &old, "a serial's byte");
        }
}

/* Firmware 1.22: S and x.xx together, as long as a present line. And a present line with its checksum. */
static void test_other_firmware(void)
{
    for (unsigned n = 0; n <= 100; n++) {
        char rest[32];
        snprintf(rest, sizeof rest, "z%u.%02uS4050.0093", n / 100, n % 100);
        message m = line_of("E+023", rest);
        expect_not_moved(FORWARD, &m, HERON_LENGTH, HERON_TEXT_LEN, "firmware 1.22");
        expect_not_moved(BACK, &m, HERON_CONTENTS, 11, "firmware 1.22");
        expect_read_refused(TEXT, (slice){m.bytes, m.len}, false, HERON_CONTENTS, 11, "firmware 1.22");
        expect_read_refused(TEXT, (slice){m.bytes, m.len}, true, HERON_LENGTH, HERON_TEXT_LEN, "firmware 1.22");
    }
    message sealed = ended(forms[TEXT].example, true);
    expect_not_moved(FORWARD, &sealed, HERON_LENGTH, HERON_TEXT_LEN_CHECKSUM, "a line with its checksum");
    expect_not_moved(BACK, &sealed, HERON_LENGTH, HERON_TEXT_LEN_CHECKSUM, "a line with its checksum");
}

void test_old_lines(void)
{
    check(strcmp(heron_refusal_name(HERON_LOST), "thousandths lost") == 0, "11 has another name");
    test_zooms();
    test_moved_pupils();
    for (int w = FORWARD; w < WAYS; w++) {
        test_moved_frame((way)w);
        test_moved_contents((way)w);
        test_moved_limits((way)w);
        test_moved_order((way)w);
    }
    test_given_serials();
    test_other_firmware();
}
