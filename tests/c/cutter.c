/* Hands streams in pieces to the cutter and the recorder from C, and compares each answer, every byte of lent memory and
 * the cutter or recorder afterwards with what request [1] says.
 *
 * cutter [SEED [CASES]]
 *
 * What must come is worked out over the whole stream, which the calls never see: where its messages end, and what the reader's
 * own entry answers to each. Piece, output and cutter or recorder lie between pages that nobody may touch (test.h). CASES is the
 * number of random streams. Exit status 1 if something is wrong. */
#include "test.h"

#include <inttypes.h>

enum { LF = 10, CR = 13, MOST = 1200 };

static unsigned long seen[17];
static area piece_area;
static uint8_t *state_page;
static edge side; /* of their pages, where all memory of a call lies */

/* ---- the entries of one kind: those that read, the one that hands out the message, and the recorder */

typedef enum { TEXT, PACKED, FIXED, WHOLE, RECORDER, KINDS } kind;
static const char *const kind_names[KINDS] = {"text", "packed", "fixed", "message", "recorder"};

static const size_t widths[] = {HERON_RECORD_BYTES, HERON_RECORD_BYTES, HERON_FIXED_BYTES};

typedef struct {
    kind kind;
    bool packed, checksum;
    size_t room;
} calls;

/* The cutter, or the recorder with its cutter, on a page of its own. */
static heron_recorder *recorder;
static heron_cutter *cutter;

static void begin(const calls *c)
{
    if (c->kind == RECORDER) {
        recorder = (heron_recorder *)(void *)place(state_page, sizeof *recorder, side);
        cutter = &recorder->cutter;
        *recorder = heron_recorder_start(c->packed, c->checksum);
    } else {
        cutter = (heron_cutter *)(void *)place(state_page, sizeof *cutter, side);
        memset(cutter, 0, sizeof *cutter);
    }
}

static heron_recorded call(const calls *c, const uint8_t *piece, size_t len, uint8_t *out)
{
    heron_cut cut;
    switch (c->kind) {
    case TEXT: cut = heron_cut_text(cutter, piece, len, c->checksum, out, c->room); break;
    case PACKED: cut = heron_cut_packed(cutter, piece, len, c->checksum, out, c->room); break;
    case FIXED: cut = heron_cut_fixed(cutter, piece, len, c->checksum, out, c->room); break;
    case WHOLE: cut = heron_cut_message(cutter, piece, len, out, c->room); break;
    default: return heron_recorder_take(recorder, piece, len, out, c->room);
    }
    return (heron_recorded){cut.number, cut.value, cut.used, cut.ended, false};
}

static heron_answer read_as(kind k, const uint8_t *message, size_t len, bool checksum, uint8_t *out, size_t out_len)
{
    return (k == TEXT ? heron_read_text : k == PACKED ? heron_read_packed : heron_read_fixed)(message, len, checksum, out, out_len);
}

/* ---- what must be answered to a message, and what is then in lent memory */

typedef struct {
    heron_answer answer;
    uint8_t bytes[HERON_CUTTER_LEN];
    size_t len;
    bool accepted; /* by its reader, whatever the room */
} wanted;

static wanted answer_to(const calls *c, bool opened, const uint8_t *message, size_t len)
{
    wanted w = {{HERON_DONE, len}, {0}, len, false};
    bool opening = c->kind == RECORDER && !opened;
    kind k = c->kind != RECORDER ? c->kind : opening ? FIXED : c->packed ? PACKED : TEXT;
    if (len > 160)
        w.answer = (heron_answer){HERON_TOO_LONG, 0};
    else if (k == WHOLE)
        memcpy(w.bytes, message, len);
    else
        w.answer = read_as(k, message, len, c->checksum && !opening, w.bytes, sizeof w.bytes);
    if (w.answer.number != HERON_DONE) {
        w.len = 0;
        return w;
    }
    w.accepted = true;
    w.len = (size_t)w.answer.value;
    check(k == WHOLE || w.len == widths[k], "%s: the reader hands out %zu bytes", kind_names[k], w.len);
    if (c->room < w.len) {
        w.answer = (heron_answer){HERON_ROOM, w.len};
        w.len = 0;
    }
    return w;
}

/* ---- a stream */

static void check_recorder(const calls *c, bool sent, bool opened, const char *what)
{
    if (c->kind == RECORDER)
        check(recorder->setup.packed == c->packed && recorder->setup.checksum == c->checksum && recorder->sent == sent &&
                  recorder->opened == opened,
              "%s: the recorder has other settings or flags", what);
}

/* After so many bytes of a message that has not ended. Of one that is too long only its count is told. */
static void check_held(const uint8_t *message, size_t len, const char *what)
{
    static const uint8_t zeros[HERON_CUTTER_LEN];
    check(cutter->len == (len <= 160 ? len : 161), "%s: the cutter counts %zu bytes, not %zu", what, cutter->len, len);
    if (len <= 160)
        check((len == 0 || memcmp(cutter->bytes, message, len) == 0) && memcmp(cutter->bytes + len, zeros, sizeof zeros - len) == 0,
              "%s: the cutter holds other bytes than the %zu of its message", what, len);
}

/* Hands in the pieces of a stream, each up to one of these places in it; every answer and state is compared. */
static void feed(const calls *c, const uint8_t *stream, size_t len, const size_t *places, size_t count)
{
    const char *what = kind_names[c->kind];
    size_t start = 0, at = 0;
    bool opened = false;
    side = side == AT_END ? AT_START : AT_END;
    begin(c);
    for (size_t p = 0; p <= count;) {
        size_t until = p < count ? places[p] : len, end = at;
        while (end < until && !(stream[end] == CR && end > start && stream[end - 1] == LF))
            end++;
        bool ends = end < until;
        size_t used = ends ? end + 1 - at : until - at;
        wanted w = {{HERON_DONE, 0}, {0}, 0, false};
        if (ends)
            w = answer_to(c, opened, stream + start, end + 1 - start);

        const uint8_t *piece = hand_in(piece_area, stream + at, until - at, side);
        uint8_t *out = lend(c->room, side);
        heron_recorded got = call(c, piece, until - at, out);
        check(got.number == w.answer.number && got.value == w.answer.value,
              "%s: answered %" PRIu32 " with %" PRIu64 ", not %" PRIu32 " with %" PRIu64, what, got.number, got.value, w.answer.number,
              w.answer.value);
        check(got.number != HERON_END, "%s: 4", what);
        check(got.used == used && got.ended == ends, "%s: %zu bytes used%s, not %zu%s", what, got.used, got.ended ? " to an end" : "", used,
              ends ? " to an end" : "");
        check(got.opening == (c->kind == RECORDER && ends && !opened), "%s: read as another form", what);
        check(holds_only(out, w.bytes, w.len), "%s: lent memory holds other bytes", what);
        if (got.number < 17 && (got.ended || got.number > 0))
            seen[got.number]++;
        at += used;
        opened = opened || w.accepted;
        if (ends)
            start = at;
        check_held(stream + start, at - start, what);
        check_recorder(c, false, c->kind == RECORDER && opened, what);
        if (at == until)
            p++;
    }
}

/* In one piece, byte by byte with empty pieces between, and in every two. */
static void feed_cuts(const calls *c, const uint8_t *stream, size_t len)
{
    static size_t places[2 * MOST];
    for (size_t i = 0; i < 2 * len; i++)
        places[i] = (i + 1) / 2;
    feed(c, stream, len, NULL, 0);
    feed(c, stream, len, places, 2 * len);
    for (size_t i = 0; i <= len; i++)
        feed(c, stream, len, &i, 1);
}

/* ---- messages, appended to a stream; a checksum is worked out here, by the paper's rule */

typedef struct {
    uint8_t bytes[MOST];
    size_t len;
} stream;

static void add(stream *s, const char *bytes, size_t len)
{
    memcpy(s->bytes + s->len, bytes, len);
    s->len += len;
}

static void add_bytes(stream *s, uint8_t byte, size_t count)
{
    memset(s->bytes + s->len, byte, count);
    s->len += count;
}

static const struct {
    const char *bytes;
    size_t len;
} bodies[] = {
    {"D0000798T0680t5.6+5Z0000H0006123N0000711F0000909V027.3E+023z0000S4050.0093", 74},
    {"\x64\x40\x40\x4C\x5E\x4A\x68\xB8\x85\x40\x40\x40\x41\x5F\x6B\x40\x40\x4B\x47\x40\x40\x4E\x4D\x44\x51\x40\x57\x40\x40S4050.0093", 39},
    {"NS4050.0093OCooke Test Lens Body           LPN050M050UIT95  B4.34", 65},
};

/* An example of 001. */
static void add_message(stream *s, kind k, bool checksum)
{
    uint8_t sum = 0xFF;
    for (size_t i = 0; i < bodies[k].len; i++)
        sum ^= (uint8_t)bodies[k].bytes[i];
    const char characters[] = {(char)(0x40 + sum / 16), (char)(0x40 + sum % 16)};
    add(s, bodies[k].bytes, bodies[k].len);
    if (checksum)
        add(s, characters, 2);
    add(s, "\n\r", 2);
}

/* One of which each reader has something to refuse: contents, checksum, length; then one that it accepts. */
static void add_all(stream *s, bool checksum)
{
    add(s, "\n\r<\n\r", 5);
    for (kind k = TEXT; k <= FIXED; k++) {
        add_message(s, k, checksum);
        s->bytes[s->len - 8] = 0x01;
        add_message(s, k, checksum);
        add_message(s, k, !checksum);
    }
}

/* ---- the tests */

/* Every stream of up to six bytes of LF, CR and another, in every cutting into pieces. */
static void test_short_streams(void)
{
    const calls whole = {WHOLE, false, false, 160};
    for (size_t len = 0; len <= 6; len++) {
        unsigned long all = 1;
        for (size_t i = 0; i < len; i++)
            all *= 3;
        for (unsigned long n = 0; n < all; n++) {
            uint8_t bytes[6];
            unsigned long rest = n;
            for (size_t i = 0; i < len; i++, rest /= 3)
                bytes[i] = (uint8_t) "\n\rx"[rest % 3];
            for (unsigned cuts = 0; cuts < (len < 2 ? 1u : 1u << (len - 1)); cuts++) {
                size_t places[6], count = 0;
                for (size_t i = 1; i < len; i++)
                    if ((cuts >> (i - 1) & 1) != 0)
                        places[count++] = i;
                feed(&whole, bytes, len, places, count);
            }
        }
    }
}

/* Messages around the longest, and far longer ones; what follows is as after any other. */
static void test_lengths(void)
{
    for (kind k = TEXT; k <= RECORDER; k++)
        for (size_t len = 156; len <= 166; len++) {
            const calls c = {k, false, false, 160};
            stream s = {{0}, 0};
            add_bytes(&s, 'x', (len == 166 ? 700 : len) - 3);
            add_bytes(&s, len % 2 == 0 ? LF : CR, 1);
            add(&s, "\n\r", 2);
            add_message(&s, k <= FIXED ? k : FIXED, false);
            add_bytes(&s, LF, 170);
            add(&s, "\r!\n\r\r", 5);
            if (len <= 165 && (k == WHOLE || len == 160 || len == 161))
                feed_cuts(&c, s.bytes, s.len);
            else
                feed(&c, s.bytes, s.len, NULL, 0);
        }
}

/* Every kind and setting on messages of every kind, and every length of lent memory. */
static void test_readers(void)
{
    for (kind k = TEXT; k <= RECORDER; k++)
        for (unsigned setting = 0; setting < (k == RECORDER ? 4 : 2); setting++) {
            calls c = {k, setting / 2 == 1, setting % 2 == 1, 160};
            stream s = {{0}, 0};
            add_all(&s, c.checksum);
            feed_cuts(&c, s.bytes, s.len);
            for (c.room = 0; c.room <= 90; c.room++)
                feed(&c, s.bytes, s.len, NULL, 0);
        }
}

/* A recorder waits for fixed data and then reads records, whatever comes before and between. */
static void test_recorder(void)
{
    for (unsigned setting = 0; setting < 4; setting++) {
        calls c = {RECORDER, setting / 2 == 1, setting % 2 == 1, HERON_RECORD_BYTES};
        kind record = c.packed ? PACKED : TEXT, other = c.packed ? TEXT : PACKED;
        stream s = {{0}, 0};
        add(&s, "4.34\n\r<\n\r", 9);
        add_message(&s, record, c.checksum);
        add_message(&s, FIXED, true);
        add_bytes(&s, 'N', 170);
        add(&s, "\n\r", 2);
        add_message(&s, FIXED, false);
        add(&s, "!\n\r", 3);
        add_message(&s, record, c.checksum);
        add_message(&s, record, !c.checksum);
        add_message(&s, other, c.checksum);
        add_message(&s, FIXED, c.checksum);
        add_message(&s, record, c.checksum);
        s.bytes[s.len - 9] = LF;
        add_message(&s, record, c.checksum);
        feed_cuts(&c, s.bytes, s.len);
        for (c.room = 0; c.room <= 60; c.room++)
            feed(&c, s.bytes, s.len, NULL, 0);
    }
    const calls first = {RECORDER, false, false, 0};
    begin(&first);
    *recorder = heron_recorder_first();
    check_held(NULL, 0, "the first recorder");
    check_recorder(&first, false, false, "the first recorder");
}

/* What a recorder has to send: once, and only with room. */
static void test_send(void)
{
    for (unsigned setting = 0; setting < 8; setting++)
        for (size_t room = 0; room <= 5; room++) {
            const calls c = {RECORDER, setting / 2 % 2 == 1, setting % 2 == 1, 2};
            side = setting >= 4 ? AT_END : AT_START;
            begin(&c);
            uint8_t *out = lend(room, side);
            heron_answer got = heron_recorder_send(recorder, out, room);
            check(got.number == (room < 2 ? HERON_ROOM : HERON_DONE) && got.value == 2, "send, room %zu: answered %" PRIu32, room, got.number);
            check(holds_only(out, (const uint8_t *)"N\r", room < 2 ? 0 : 2), "send, room %zu: lent memory holds other bytes", room);
            seen[got.number]++;
            check_held(NULL, 0, "send");
            check_recorder(&c, room >= 2, false, "send");
            if (room < 2)
                continue;
            for (size_t again = 0; again <= 3; again++) {
                out = lend(again, side);
                got = heron_recorder_send(recorder, out, again);
                check(got.number == HERON_DONE && got.value == 0, "send again, room %zu: answered %" PRIu32, again, got.number);
                check(holds_only(out, NULL, 0), "send again, room %zu: lent memory holds other bytes", again);
                check_recorder(&c, true, false, "send again");
            }
            /* a message goes on over a send */
            recorder->sent = false;
            out = lend(2, side);
            call(&c, (const uint8_t *)"ab\n", 3, out);
            heron_recorder_send(recorder, out, 2);
            check(holds_only(out, (const uint8_t *)"N\r", 2), "send in a message: lent memory holds other bytes");
            check_held((const uint8_t *)"ab\n", 3, "send in a message");
            check_recorder(&c, true, false, "send in a message");
        }
}

/* A cutter with any bytes and any count: 16 past the counts that are allowed, and then nothing changes. */
static void test_states(void)
{
    static const size_t past[] = {162, 163, 255, 256, 65536 + 5, SIZE_MAX / 2, SIZE_MAX - 1, SIZE_MAX};
    uint8_t bytes[170];
    for (kind k = TEXT; k <= RECORDER; k++)
        for (size_t n = 0; n <= 161 + sizeof past / sizeof past[0]; n++)
            for (unsigned way = 0; way < 8; way++) {
                const calls c = {k, way / 2 % 2 == 1, way % 2 == 1, way % 4 < 2 ? 160 : 0};
                const char *const given = way % 2 == 0 ? "\n\rx" : "q";
                size_t given_len = strlen(given), len = n <= 161 ? n : past[n - 162];
                side = way >= 4 ? AT_END : AT_START;
                begin(&c);
                for (size_t i = 0; i < sizeof cutter->bytes; i++)
                    cutter->bytes[i] = (uint8_t)('a' + random_below(26));
                cutter->len = len;
                heron_cutter before = *cutter;
                uint8_t *out = lend(c.room, side);
                heron_recorded got = call(&c, hand_in(piece_area, (const uint8_t *)given, given_len, side), given_len, out);
                if (len > 161) {
                    check(got.number == HERON_STATE && got.value == 0 && got.used == 0 && !got.ended && !got.opening,
                          "%s: a count of %zu: answered %" PRIu32, kind_names[k], len, got.number);
                    check(memcmp(cutter, &before, sizeof before) == 0, "%s: 16 changed the cutter", kind_names[k]);
                    check(holds_only(out, NULL, 0), "%s: 16 wrote", kind_names[k]);
                    check_recorder(&c, false, false, "16");
                    seen[HERON_STATE]++;
                    if (k == RECORDER) {
                        out = lend(way % 3, side);
                        heron_answer sent = heron_recorder_send(recorder, out, way % 3);
                        check(sent.number == HERON_STATE && sent.value == 0, "send, a count of %zu: answered %" PRIu32, len, sent.number);
                        check(memcmp(cutter, &before, sizeof before) == 0 && holds_only(out, NULL, 0), "send: 16 changed something");
                        check_recorder(&c, false, false, "send, 16");
                    }
                    continue;
                }
                memcpy(bytes, before.bytes, len < 160 ? len : 160);
                memcpy(bytes + (len < 160 ? len : 160), given, given_len);
                bool ends = way % 2 == 0;
                wanted w = {{HERON_DONE, 0}, {0}, 0, false};
                if (ends)
                    w = answer_to(&c, false, bytes, len + 2);
                check(got.number == w.answer.number && got.value == w.answer.value && got.used == (ends ? 2 : 1) && got.ended == ends,
                      "%s: any bytes, a count of %zu: answered %" PRIu32 " with %" PRIu64, kind_names[k], len, got.number, got.value);
                check(holds_only(out, w.bytes, w.len), "%s: any bytes: lent memory holds other bytes", kind_names[k]);
                if (ends)
                    check_held(NULL, 0, "any bytes, then an end");
                else
                    check(cutter->len == (len < 160 ? len + 1 : 161), "%s: a byte on a count of %zu makes %zu", kind_names[k], len, cutter->len);
                seen[got.number] += ends;
            }
}

/* Random messages in random pieces, by a random kind of entry. */
static void test_random(unsigned long cases)
{
    for (unsigned long i = 0; i < cases; i++) {
        calls c = {(kind)random_below(KINDS), random_below(2) == 1, random_below(2) == 1, random_below(3) == 0 ? random_below(170) : 160};
        stream s = {{0}, 0};
        for (size_t n = random_below(8); n > 0; n--) {
            size_t from = s.len;
            if (random_below(4) == 0)
                add_bytes(&s, (uint8_t) "x\n\r"[random_below(3)], random_below(3) == 0 ? 150 + random_below(20) : random_below(4));
            else
                add_message(&s, (kind)random_below(3), random_below(2) == 1);
            if (random_below(3) == 0 && s.len > from)
                s.bytes[from + random_below((uint32_t)(s.len - from))] = (uint8_t)(random_below(2) == 0 ? random_next() : LF);
        }
        size_t places[MOST], count = 0;
        for (size_t at = 0; count < 100 && (at += random_below(60)) <= s.len;)
            places[count++] = at;
        feed(&c, s.bytes, s.len, places, count);
    }
}

int main(int argc, char **argv)
{
    unsigned long cases = start_test("cutter", argc, argv, 5000);
    piece_area = new_area(true);
    state_page = new_area(false).page;

    check(HERON_CUTTER_LEN == 160 && HERON_SEND_LEN == 2 && sizeof(heron_cutter) == 168, "the cutter has another size");
    test_short_streams();
    test_lengths();
    test_readers();
    test_recorder();
    test_send();
    test_states();
    test_random(cases);
    static const unsigned numbers[] = {HERON_DONE, HERON_ROOM, HERON_LENGTH, HERON_CHECKSUM, HERON_CONTENTS, HERON_TOO_LONG, HERON_STATE};
    for (size_t i = 0; i < sizeof numbers / sizeof numbers[0]; i++)
        check(seen[numbers[i]] > 20, "%u came %lu times", numbers[i], seen[numbers[i]]);
    return end_test();
}
