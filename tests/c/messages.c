/* The three forms with their examples, messages with endings, and expectations (messages.h). */
#include "messages.h"

#include <inttypes.h>

/* ---- the three forms */

static const uint8_t packed_example[] = {
    0x64, 0x40, 0x40, 0x4C, 0x5E, 0x4A, 0x68, 0xB8, 0x85, 0x40, 0x40, 0x40, 0x41, 0x5F, 0x6B, 0x40, 0x40, 0x4B, 0x47, 0x40,
    0x40, 0x4E, 0x4D, 0x44, 0x51, 0x40, 0x57, 0x40, 0x40, 0x53, 0x34, 0x30, 0x35, 0x30, 0x2E, 0x30, 0x30, 0x39, 0x33};

/* The examples of 001, without their endings. */
const form forms[FORMS] = {
    {"text", heron_read_text, HERON_RECORD_BYTES, HERON_FIELD, 12, {8, 5, 4, 2, 5, 8, 8, 8, 6, 5, 5, 10},
     {(const uint8_t *)"D0000798T0680t5.6+5Z0000H0006123N0000711F0000909V027.3E+023z0000S4050.0093", 74}},
    {"packed", heron_read_packed, HERON_RECORD_BYTES, HERON_FIELD, 12, {5, 2, 1, 1, 2, 4, 4, 4, 2, 2, 2, 10},
     {packed_example, sizeof packed_example}},
    {"fixed", heron_read_fixed, HERON_FIXED_BYTES, HERON_SETTING, 8, {11, 32, 2, 4, 4, 2, 3, 7},
     {(const uint8_t *)"NS4050.0093OCooke Test Lens Body           LPN050M050UIT95  B4.34", 65}},
};

contents example(void)
{
    contents c;
    c.record = (heron_record){798, 680, 56, 5, 0, 6123, 711, 909, 273, 23, 0, {0}};
    c.fixed = (heron_fixed){{0}, {0}, 'P', 50, 50, 'I', 95, {0}};
    c.serial = TEXT_SLICE("4050.0093");
    c.owner = TEXT_SLICE("Cooke Test Lens Body           ");
    c.version = TEXT_SLICE("4.34");
    memcpy(c.record.serial, c.serial.bytes, sizeof c.record.serial);
    memcpy(c.fixed.serial, c.serial.bytes, sizeof c.fixed.serial);
    memcpy(c.fixed.owner, c.owner.bytes, sizeof c.fixed.owner);
    memcpy(c.fixed.version, c.version.bytes, sizeof c.fixed.version);
    return c;
}


bool same_record(const heron_record *a, const heron_record *b)
{
    return a->focus == b->focus && a->aperture == b->aperture && a->stop == b->stop && a->tenth == b->tenth &&
           a->focal == b->focal && a->hyperfocal == b->hyperfocal && a->near == b->near && a->far == b->far &&
           a->view == b->view && a->pupil == b->pupil && a->zoom == b->zoom &&
           memcmp(a->serial, b->serial, sizeof a->serial) == 0;
}

bool same_fixed(const heron_fixed *a, const heron_fixed *b)
{
    return memcmp(a->serial, b->serial, sizeof a->serial) == 0 && memcmp(a->owner, b->owner, sizeof a->owner) == 0 &&
           a->kind == b->kind && a->focal == b->focal && a->maximum == b->maximum && a->letter == b->letter &&
           a->transmission == b->transmission && memcmp(a->version, b->version, sizeof a->version) == 0;
}

const range ranges[12] = {{0, 0},       {0, 9999999}, {0, 4095},    {0, 250},  {0, 9},      {0, 1023},
                          {0, 9999999}, {0, 9999999}, {0, 9999999}, {0, 4095}, {-999, 999}, {0, 1000}};

bool in_range(int field, int64_t value)
{
    return value >= ranges[field].low && value <= ranges[field].high && (field != 3 || value < 100 || value % 10 == 0);
}

void set_field(heron_record *r, int field, int64_t value)
{
    uint32_t n = (uint32_t)value;
    switch (field) {
    case 1: r->focus = n; break;
    case 2: r->aperture = n; break;
    case 3: r->stop = n; break;
    case 4: r->tenth = n; break;
    case 5: r->focal = n; break;
    case 6: r->hyperfocal = n; break;
    case 7: r->near = n; break;
    case 8: r->far = n; break;
    case 9: r->view = n; break;
    case 10: r->pupil = (int32_t)value; break;
    default: r->zoom = n; break;
    }
}

contents random_contents(void)
{
    contents c = example();
    for (int field = 1; field <= 11; field++) {
        int64_t value;
        do
            value = ranges[field].low + random_below((uint32_t)(ranges[field].high - ranges[field].low) + 1);
        while (!in_range(field, value));
        set_field(&c.record, field, value);
    }
    c.fixed.kind = (uint8_t) "PZ"[random_below(2)];
    c.fixed.focal = random_below(1000);
    c.fixed.maximum = random_below(1000);
    c.fixed.letter = (uint8_t) "IMBb"[random_below(4)];
    c.fixed.transmission = random_below(100);
    for (int i = 0; i < HERON_SERIAL_LEN; i++)
        c.record.serial[i] = c.fixed.serial[i] = (uint8_t)(0x20 + random_below(95));
    for (int i = 0; i < HERON_OWNER_LEN; i++)
        c.fixed.owner[i] = (uint8_t)(0x20 + random_below(95));
    for (int i = 0; i < HERON_VERSION_LEN; i++)
        c.fixed.version[i] = (uint8_t)(0x20 + random_below(95));
    return c;
}

/* ---- a message with its ending */

void put_sum(message *m)
{
    uint8_t sum = 0xFF;
    for (size_t i = 0; i < m->len - 4; i++)
        sum ^= m->bytes[i];
    m->bytes[m->len - 4] = (uint8_t)(0x40 + sum / 16);
    m->bytes[m->len - 3] = (uint8_t)(0x40 + sum % 16);
}

message ended(slice body, bool checksum)
{
    message m = {{0}, body.len + (checksum ? 4 : 2)};
    memcpy(m.bytes, body.bytes, body.len);
    m.bytes[m.len - 2] = '\n';
    m.bytes[m.len - 1] = '\r';
    if (checksum)
        put_sum(&m);
    return m;
}

/* ---- expectations */

area message_area, serial_area;
static area owner_area, version_area;
static unsigned turn;

void start_areas(void)
{
    area *const areas[] = {&message_area, &serial_area, &owner_area, &version_area};
    for (size_t i = 0; i < sizeof areas / sizeof areas[0]; i++)
        *areas[i] = new_area(true);
}

edge next_edge(void)
{
    return ++turn % 2 == 0 ? AT_END : AT_START;
}

size_t next_room(size_t needed)
{
    return turn % 3 == 0 ? 0 : turn % 3 == 1 ? needed : 200;
}

void check_answer(heron_answer got, uint32_t number, uint64_t value, const char *what)
{
    check(got.number == number && got.value == value,
          "%s: answered %" PRIu32 " with %" PRIu64 ", not %" PRIu32 " with %" PRIu64, what, got.number, got.value, number,
          value);
}

heron_answer write_form(int f, const contents *c, bool checksum, uint8_t *out, size_t out_len, edge e)
{
    const heron_record *r = &c->record;
    const heron_fixed *n = &c->fixed;
    const uint8_t *serial = hand_in(serial_area, c->serial.bytes, c->serial.len, e);
    if (f == FIXED) {
        const uint8_t *owner = hand_in(owner_area, c->owner.bytes, c->owner.len, e);
        const uint8_t *version = hand_in(version_area, c->version.bytes, c->version.len, e);
        return heron_write_fixed(serial, c->serial.len, owner, c->owner.len, n->kind, n->focal, n->maximum, n->letter,
                                 n->transmission, version, c->version.len, checksum, out, out_len);
    }
    return (f == TEXT ? heron_write_text : heron_write_packed)(
        r->focus, r->aperture, r->stop, r->tenth, r->focal, r->hyperfocal, r->near, r->far, r->view, r->pupil, r->zoom,
        serial, c->serial.len, checksum, out, out_len);
}

void expect_write_refused(int f, const contents *c, uint32_t number, uint64_t value, const char *what)
{
    size_t room = next_room(HERON_LONGEST);
    edge e = next_edge();
    uint8_t *out = lend(room, e);
    check_answer(write_form(f, c, turn % 4 < 2, out, room, e), number, value, what);
    check(holds_only(out, NULL, 0), "%s: a refused writer wrote", what);
}

void expect_read_refused(int f, slice m, bool checksum, uint32_t number, uint64_t value, const char *what)
{
    size_t room = next_room(forms[f].width);
    edge e = next_edge();
    const uint8_t *given = hand_in(message_area, m.bytes, m.len, e);
    uint8_t *out = lend(room, e);
    check_answer(forms[f].read(given, m.len, checksum, out, room), number, value, what);
    check(holds_only(out, NULL, 0), "%s: a refused reader wrote", what);
    if (f == FIXED) {
        check_answer(heron_owner_start(given, m.len, checksum), number, value, what);
        check_answer(heron_owner_len(given, m.len, checksum), number, value, what);
    }
}

const pupil_place pupils[2] = {[TEXT] = {54, 5, "E-000", "E+000"}, [PACKED] = {25, 2, "\x60\x40", "\x40\x40"}};

/* What a writer writes in place of an accepted message: the same, but for minus zero, which is plus zero under its own checksum. */
static message plus_form(int f, message m, bool checksum)
{
    if (f == FIXED || memcmp(m.bytes + pupils[f].at, pupils[f].minus, pupils[f].len) != 0)
        return m;
    memcpy(m.bytes + pupils[f].at, pupils[f].plus, pupils[f].len);
    if (checksum)
        put_sum(&m);
    return m;
}


heron_answer read_exactly(int f, const message *m, bool checksum, contents *c)
{
    edge e = next_edge();
    const uint8_t *given = hand_in(message_area, m->bytes, m->len, e);
    uint8_t *out = lend(forms[f].width, e);
    heron_answer answer = forms[f].read(given, m->len, checksum, out, forms[f].width);
    if (answer.number != HERON_DONE) {
        check(holds_only(out, NULL, 0), "%s: a refused reader wrote", forms[f].name);
        return answer;
    }
    check_answer(answer, HERON_DONE, forms[f].width, forms[f].name);
    *c = example();
    if (f == FIXED) {
        c->fixed = heron_fixed_unpack(out);
        c->serial = SLICE(c->fixed.serial);
        c->owner = SLICE(c->fixed.owner);
        c->version = SLICE(c->fixed.version);
    } else {
        c->record = heron_record_unpack(out);
        c->serial = SLICE(c->record.serial);
    }
    message sent = plus_form(f, *m, checksum);
    uint8_t *again = lend(m->len, e);
    check_answer(write_form(f, c, checksum, again, m->len, e), HERON_DONE, m->len, "what was read, written");
    check(holds_only(again, sent.bytes, m->len), "%s: what was read is written otherwise", forms[f].name);
    return answer;
}

void expect_round_trip(int f, const contents *c, bool checksum, const char *what)
{
    message m = {{0}, forms[f].example.len + (checksum ? 4 : 2)};
    edge e = next_edge();
    uint8_t *out = lend(m.len, e);
    check_answer(write_form(f, c, checksum, out, m.len, e), HERON_DONE, m.len, what);
    memcpy(m.bytes, out, m.len);
    contents back = example();
    check_answer(read_exactly(f, &m, checksum, &back), HERON_DONE, forms[f].width, what);
    check(f == FIXED ? same_fixed(&back.fixed, &c->fixed) : same_record(&back.record, &c->record),
          "%s: read back otherwise", what);
}

/* ---- what every reader of messages must refuse */

void expect_frame(refusing expect, int of, const message *m, bool checksum, const char *end)
{
    message other = *m;
    uint8_t longer[300];
    for (size_t len = 0; len <= sizeof longer; len++) {
        memset(longer, 'x', sizeof longer);
        memcpy(longer, m->bytes, len < m->len ? len : m->len);
        if (len >= strlen(end))
            memcpy(longer + len - strlen(end), end, strlen(end));
        if (len != m->len)
            expect(of, (slice){longer, len}, checksum, HERON_LENGTH, len, "another length");
    }
    for (int pair = 0; pair < 65536; pair++) {
        const uint8_t bytes[2] = {(uint8_t)(pair / 256), (uint8_t)(pair % 256)};
        other = *m;
        other.bytes[0] = 0; /* 4 comes before 5 and 6 */
        memcpy(other.bytes + m->len - 2, bytes, 2);
        if (pair != 0x0A0D)
            expect(of, (slice){other.bytes, m->len}, checksum, HERON_END, 0, "other last bytes");
        other = *m;
        memcpy(other.bytes + m->len - 4, bytes, 2);
        if (checksum && memcmp(other.bytes, m->bytes, m->len) != 0)
            expect(of, (slice){other.bytes, m->len}, true, HERON_CHECKSUM, 0, "another checksum");
    }
    for (size_t at = 0; checksum && at < m->len - 4; at++)
        for (int change = 1; change < 256; change++) {
            other = *m;
            other.bytes[at] ^= (uint8_t)change;
            expect(of, (slice){other.bytes, m->len}, true, HERON_CHECKSUM, 0, "a byte changed under a checksum");
        }
}

size_t expect_contents(accepting accepts, refusing expect, int f, bool checksum)
{
    const form *tried = &forms[f];
    const message m = ended(tried->example, checksum);
    size_t starts[12], at = 0;
    for (int part = 0; part < tried->parts; part++) {
        unsigned accepted = 0, refused = 0;
        starts[part] = at;
        for (size_t end = at + tried->part[part]; at < end; at++)
            for (int byte = 0; byte < 256; byte++) {
                message other = m;
                other.bytes[at] = (uint8_t)byte;
                if (checksum)
                    put_sum(&other);
                /* The top bit of the stop lies in the byte of the tenth. */
                bool of_stop = f == PACKED && part == 3 && (byte & 0x40) != 0;
                if (accepts(f, &other, checksum, of_stop ? 3 : (uint64_t)part + 1))
                    accepted++;
                else
                    refused++;
            }
        check(accepted > tried->part[part] && refused > 0, "%s: part %d: %u accepted, %u refused", tried->name, part + 1, accepted,
              refused);
    }
    for (int first = 0; first < tried->parts; first++)
        for (int second = first; second < tried->parts; second++) {
            message other = m;
            other.bytes[starts[first]] = other.bytes[starts[second]] = 0;
            if (checksum)
                put_sum(&other);
            expect(f, (slice){other.bytes, other.len}, checksum, HERON_CONTENTS, (uint64_t)first + 1, "the first of two wrong parts");
        }
    return at;
}
