/* Calls the writers, the readers, the routes from packed to text, the movers of old text records, the conversion and the checksum of
 * libhourheron.a from C, and compares every answer and every byte of lent memory.
 *
 * entries [SEED [CASES]]
 *
 * forms.c, old_lines.c and transfers.c have the larger part; here are the owner's part, the conversion, the checksum, the names, and random
 * contents through the functions on structs. Exit status 1 if an answer or a byte is wrong. */
#include "messages.h"

#include <inttypes.h>

static void test_owner(void)
{
    for (size_t len = 0; len <= HERON_OWNER_LEN; len++)
        for (int checksum = 0; checksum <= 1; checksum++) {
            message m = ended(forms[FIXED].example, false);
            memset(m.bytes + 12, ' ', HERON_OWNER_LEN);
            memset(m.bytes + 12, 'x', len);
            if (len > 2)
                m.bytes[13] = ' '; /* a space inside stays */
            m = ended((slice){m.bytes, forms[FIXED].example.len}, checksum);
            const uint8_t *given = hand_in(message_area, m.bytes, m.len, next_edge());
            check_answer(heron_owner_start(given, m.len, checksum), HERON_DONE, 12, "where the owner's part starts");
            check_answer(heron_owner_len(given, m.len, checksum), HERON_DONE, len, "how long the owner's part is");
        }
}

static void expect_converted(uint32_t field, int32_t number, char unit, char wanted, uint32_t refusal, uint32_t low,
                             int32_t value)
{
    heron_converted got = heron_convert(field, number, (uint8_t)unit, (uint8_t)wanted);
    check(got.number == refusal && got.field == low && got.value == value,
          "field %" PRIu32 ", %" PRId32 " from %d to %d: answered %" PRIu32 " %" PRIu32 " %" PRId32, field, number, unit,
          wanted, got.number, got.field, got.value);
}

static bool is_distance(uint32_t field)
{
    return field == 1 || field == 6 || field == 7 || field == 8;
}

static void test_convert(void)
{
    for (uint32_t i = 0; i <= 16; i++) {
        uint32_t field = i == 16 ? UINT32_MAX : i;
        bool distance = is_distance(field), any = distance || field == 10;
        int32_t most[2] = {distance ? 9999999 : 999, distance ? 3937007 : 393};
        expect_converted(field, 0, 'M', 'I', any ? 0 : 1, any ? 0 : field, 0);
        for (int u = 0; u < 2; u++) {
            char unit = "MI"[u];
            expect_converted(field, most[u], unit, unit, any ? 0 : 1, any ? 0 : field, any ? most[u] : 0);
            expect_converted(field, most[u] + 1, unit, unit, 1, field, 0);
            expect_converted(field, INT32_MAX, unit, "IM"[u], 1, field, 0);
            expect_converted(field, INT32_MIN, unit, "IM"[u], 1, field, 0);
            expect_converted(field, -1, unit, unit, field == 10 ? 0 : 1, field == 10 ? 0 : field, field == 10 ? -1 : 0);
        }
        for (int letter = 0; letter < 256; letter++)
            if (letter != 'I' && letter != 'M') {
                expect_converted(field, 5, (char)letter, 'M', 1, 0, 0);
                expect_converted(field, -5, 'I', (char)letter, 1, 0, 0);
            }
    }
    for (uint32_t field = 1; field <= 10; field++)
        if (is_distance(field)) {
            expect_converted(field, 1000, 'M', 'I', 0, 0, 394);
            expect_converted(field, 9999999, 'M', 'I', 0, 0, 3937007);
            expect_converted(field, 25, 'I', 'M', 0, 0, 64);
            expect_converted(field, 3937007, 'I', 'M', 0, 0, 9999998);
        }
    expect_converted(10, -25, 'I', 'M', 0, 0, -64);
    expect_converted(10, 25, 'I', 'M', 0, 0, 64);
    expect_converted(10, -999, 'M', 'I', 0, 0, -393);
    expect_converted(10, -393, 'I', 'M', 0, 0, -998);
}

static void test_checksum(void)
{
    uint8_t bytes[4096];
    for (size_t i = 0; i < sizeof bytes; i++)
        bytes[i] = (uint8_t)random_next();
    uint8_t sum = 0xFF;
    for (size_t len = 0; len <= page_size && len <= sizeof bytes; len++) {
        const uint8_t *given = hand_in(message_area, bytes, len, next_edge());
        check_answer(heron_checksum(given, len), HERON_DONE, (0x40u + sum / 16) * 256 + (0x40u + sum % 16), "a checksum");
        if (len < sizeof bytes)
            sum ^= bytes[len];
    }
    check_answer(heron_checksum((const uint8_t *)"!", 1), HERON_DONE, 'M' * 256 + 'N', "the checksum of !");
    check_answer(heron_checksum((const uint8_t *)"?", 1), HERON_DONE, 'L' * 256 + '@', "the checksum of ?");
    check_answer(heron_checksum(NULL, 0), HERON_DONE, 'O' * 256 + 'O', "the checksum of nothing");
}

static void test_names(void)
{
    static const uint32_t numbers[] = {HERON_DONE,     HERON_FIELD,   HERON_ROOM,    HERON_LENGTH,   HERON_END,  HERON_CHECKSUM,
                                       HERON_CONTENTS, HERON_DROPPED, HERON_SETTING, HERON_TOO_LONG, HERON_FORM, HERON_LOST,
                                       HERON_NO_PORT,  HERON_STATE};
    static const uint32_t paper[] = {0, 1, 2, 3, 4, 5, 6, 7, 8, 9, 10, 11, 12, 16};
    const char *none = heron_refusal_name(UINT32_MAX);
    for (size_t i = 0; i < sizeof paper / sizeof paper[0]; i++) {
        check(numbers[i] == paper[i], "the number of %s is %" PRIu32, heron_refusal_name(paper[i]), numbers[i]);
        check(strcmp(heron_refusal_name(paper[i]), none) != 0, "refusal %" PRIu32 " has no name", paper[i]);
        for (size_t j = 0; j < i; j++)
            check(strcmp(heron_refusal_name(paper[i]), heron_refusal_name(paper[j])) != 0,
                  "refusals %" PRIu32 " and %" PRIu32 " have one name", paper[i], paper[j]);
    }
    for (uint32_t n = 13; n < 100000; n++)
        check(n == 16 || strcmp(heron_refusal_name(n), none) == 0, "%" PRIu32 " is no refusal, but has a name", n);
}

static void test_structs(unsigned long cases)
{
    for (unsigned long i = 0; i < cases; i++) {
        contents c = random_contents();
        bool checksum = i % 2 == 1;
        uint8_t out[HERON_LONGEST];
        heron_record r;
        heron_fixed f;
        memset(&r, FILL, sizeof r);
        memset(&f, FILL, sizeof f);
        const heron_record r_before = r;
        const heron_fixed f_before = f;

        size_t len = checksum ? HERON_TEXT_LEN_CHECKSUM : HERON_TEXT_LEN;
        check_answer(heron_record_to_text(&c.record, checksum, out, sizeof out), HERON_DONE, len, "a struct to text");
        check_answer(heron_record_from_text(out, len - 1, checksum, &r), HERON_LENGTH, len - 1, "a struct from less text");
        check(memcmp(&r, &r_before, sizeof r) == 0, "a refused text changed the struct");
        check_answer(heron_record_from_text(out, len, checksum, &r), HERON_DONE, HERON_RECORD_BYTES, "a struct from text");
        check(same_record(&r, &c.record), "case %lu: a record came back otherwise from text", i);

        /* Back and forward, where no thousandths are lost. */
        heron_record whole = c.record;
        uint8_t new[HERON_TEXT_LEN], old[HERON_OLD_LEN], again[HERON_TEXT_LEN];
        whole.zoom -= whole.zoom % 10;
        check_answer(heron_record_to_text(&whole, false, new, sizeof new), HERON_DONE, sizeof new, "a struct to text");
        check_answer(heron_new_to_old(new, sizeof new, old, sizeof old), HERON_DONE, sizeof old, "a record back");
        check_answer(heron_read_text(old, sizeof old, checksum, again, sizeof again), HERON_LENGTH, sizeof old, "an old line read");
        check_answer(heron_old_to_new(old, sizeof old, whole.serial, sizeof whole.serial, again, sizeof again), HERON_DONE, sizeof again,
                     "a record forward");
        check(memcmp(again, new, sizeof new) == 0, "case %lu: a line came otherwise back and forward", i);

        r = r_before;
        len = checksum ? HERON_PACKED_LEN_CHECKSUM : HERON_PACKED_LEN;
        check_answer(heron_record_to_packed(&c.record, checksum, out, sizeof out), HERON_DONE, len, "a struct to packed");
        check_answer(heron_record_from_packed(out, len - 1, checksum, &r), HERON_LENGTH, len - 1, "a struct from less");
        check(memcmp(&r, &r_before, sizeof r) == 0, "a refused packed record changed the struct");
        check_answer(heron_record_from_packed(out, len, checksum, &r), HERON_DONE, HERON_RECORD_BYTES, "a struct from packed");
        check(same_record(&r, &c.record), "case %lu: a record came back otherwise from packed", i);

        len = checksum ? HERON_FIXED_LEN_CHECKSUM : HERON_FIXED_LEN;
        check_answer(heron_fixed_to_message(&c.fixed, checksum, out, sizeof out), HERON_DONE, len, "a struct to N");
        check_answer(heron_fixed_from_message(out, len - 1, checksum, &f), HERON_LENGTH, len - 1, "a struct from less N");
        check(memcmp(&f, &f_before, sizeof f) == 0, "a refused N message changed the struct");
        check_answer(heron_fixed_from_message(out, len, checksum, &f), HERON_DONE, HERON_FIXED_BYTES, "a struct from N");
        check(same_fixed(&f, &c.fixed), "case %lu: fixed data came back otherwise", i);
    }
}

int main(int argc, char **argv)
{
    unsigned long cases = start_test("entries", argc, argv, 20000);
    start_areas();
    check(sizeof(heron_answer) == 16 && sizeof(heron_converted) == 12, "the answers have other sizes");
    test_forms();
    test_old_lines();
    test_transfers();
    test_owner();
    test_convert();
    test_checksum();
    test_names();
    test_structs(cases);
    test_random_transfers(cases);
    return end_test();
}
