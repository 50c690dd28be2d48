/* What the parts of the program `entries` share: the three forms with their examples, messages with endings, and expectations. */
#ifndef MESSAGES_H
#define MESSAGES_H

#include "test.h"

/* ---- the three forms */

typedef struct {
    const uint8_t *bytes;
    size_t len;
} slice;

#define SLICE(array) ((slice){array, sizeof array})
#define TEXT_SLICE(text) ((slice){(const uint8_t *)text, sizeof text - 1})

/* What a writer is handed: a record or fixed data, texts of any length. */
typedef struct {
    heron_record record;
    heron_fixed fixed;
    slice serial, owner, version;
} contents;

typedef heron_answer (*reader)(const uint8_t *, size_t, bool, uint8_t *, size_t);

/* parts: how many bytes of the message belong to each field or item, tags counted to what follows them. */
typedef struct {
    const char *name;
    reader read;
    size_t width;
    uint32_t refusal;
    int parts;
    size_t part[12];
    slice example;
} form;

enum { TEXT, PACKED, FIXED, FORMS };

extern const form forms[FORMS];

/* The contents of the examples, and any in range. */
contents example(void);
contents random_contents(void);

bool same_record(const heron_record *a, const heron_record *b);
bool same_fixed(const heron_fixed *a, const heron_fixed *b);

/* Document 01's ranges of fields 1 to 11. The stop's has gaps. */
typedef struct {
    int64_t low, high;
} range;

extern const range ranges[12];

bool in_range(int field, int64_t value);
void set_field(heron_record *r, int field, int64_t value);

/* ---- a message with its ending; the checksum is worked out here, by the paper's rule */

typedef struct {
    uint8_t bytes[HERON_LONGEST];
    size_t len;
} message;

void put_sum(message *m);
message ended(slice body, bool checksum);

/* Where the pupil's bytes stand in a record, and zero with minus and with plus. */
typedef struct {
    size_t at, len;
    const char *minus, *plus;
} pupil_place;

extern const pupil_place pupils[2];

/* ---- expectations, each on the next of the placements and output lengths */

extern area message_area, serial_area;

void start_areas(void);
edge next_edge(void);

/* None, just what is needed, or more. */
size_t next_room(size_t needed);

void check_answer(heron_answer got, uint32_t number, uint64_t value, const char *what);

/* The writer of the form on contents, every slice between its pages. */
heron_answer write_form(int f, const contents *c, bool checksum, uint8_t *out, size_t out_len, edge e);

void expect_write_refused(int f, const contents *c, uint32_t number, uint64_t value, const char *what);
void expect_read_refused(int f, slice m, bool checksum, uint32_t number, uint64_t value, const char *what);

/* Reads a message into exactly the bytes that it takes. Accepted, its plus form must be what the writer writes of its contents. */
heron_answer read_exactly(int f, const message *m, bool checksum, contents *c);

/* Writes contents that are in range, reads them back and compares. */
void expect_round_trip(int f, const contents *c, bool checksum, const char *what);

/* ---- what every reader of messages must refuse */

/* Expects this refusal of a message: of the reader of this form, the mover of this way or the routes. */
typedef void (*refusing)(int of, slice m, bool checksum, uint32_t number, uint64_t value, const char *what);

/* Refusals 3, 4 and 5: every other length, with this end; every other pair of last bytes, every other checksum, and each byte changed
 * under it. */
void expect_frame(refusing expect, int of, const message *m, bool checksum, const char *end);

/* Whether a message with one changed byte is accepted; if not, it is expected to be refused by this field or item. */
typedef bool (*accepting)(int f, const message *m, bool checksum, uint64_t part);

/* Refusal 6: every byte at every place of the form's example, under its own checksum, and the first of two wrong fields or items. Returns
 * how long the fields or items are. */
size_t expect_contents(accepting accepts, refusing expect, int f, bool checksum);

/* ---- the tests: forms.c, old_lines.c, transfers.c */

void test_forms(void);
void test_old_lines(void);
void test_transfers(void);
void test_random_transfers(unsigned long cases);

#endif
