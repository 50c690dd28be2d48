/* hourheron.h: the messages of a Cooke /i lens for a C host. C99 and C++11.
 *
 * Writers and readers of the text record (D), the packed record (Kd) and the fixed data (N), packed records turned
 * to text, text records of old zoom firmware moved to the present form and back, the conversion between 0.1 inch
 * and 1 mm, the checksum, the collector of a received line; for the camera side the cutter of a stream and the
 * recorder. They are proved in Rattle: each takes any input, and a reader accepts exactly the messages that its
 * writer writes, a record's reader also those with minus zero for the entrance pupil, which other makers send.
 *
 * Every function but a recorder's start answers by value with a number: 0 for done, else a refusal (enum
 * heron_refusal). A refusal writes to no memory that is lent for output, and what does not come with an answer
 * is 0. No function keeps anything between calls or allocates, so any thread may call any of them at any time;
 * a line, a cutter or a recorder that you keep is for one thread at a time.
 *
 * Memory is handed over as a pointer and a length in bytes. With length 0 the pointer may be null and
 * nothing is read or written through it. With another length it must be valid for that many bytes, to
 * read (const) or to write, until the call returns. The memory lent for output may not overlap any
 * other argument. These duties are yours: they cannot be checked.
 *
 * `checksum` says whether checksum mode is on. Link with -lhourheron.
 */
#ifndef HOURHERON_H
#define HOURHERON_H

#include <stdbool.h>
#include <stddef.h>
#include <stdint.h>
#include <string.h>

#define HOURHERON_VERSION "0.9.0"

/* ---- lengths in bytes */

/* Of the messages with their LF CR, plain and in checksum mode. */
#define HERON_TEXT_LEN 76
#define HERON_TEXT_LEN_CHECKSUM 78
#define HERON_PACKED_LEN 41
#define HERON_PACKED_LEN_CHECKSUM 43
#define HERON_FIXED_LEN 67
#define HERON_FIXED_LEN_CHECKSUM 69

/* Of a text record of old zoom firmware with its LF CR. It has no checksum. */
#define HERON_OLD_LEN 66

/* Enough for any of them. */
#define HERON_LONGEST 78

/* Of a record and of fixed data as the readers hand them out. */
#define HERON_RECORD_BYTES 53
#define HERON_FIXED_BYTES 51

/* Of the texts. */
#define HERON_SERIAL_LEN 9
#define HERON_OWNER_LEN 31
#define HERON_VERSION_LEN 4

/* Of a received line: the bytes that it keeps. */
#define HERON_LINE_LEN 64

/* Of a message in a stream: the bytes that a cutter holds, LF CR included. */
#define HERON_CUTTER_LEN 160

/* Of what a recorder has to send. */
#define HERON_SEND_LEN 2

/* ---- refusals */

/* The numbers, with what is in `value` beside each. 7 and 12 are the ports' and 10 the replay's: no function below answers them. */
enum heron_refusal {
    HERON_DONE = 0,     /* done: the count or what the function says */
    HERON_FIELD = 1,    /* a field out of range: the lowest one; 0 for a unit letter, 13 for a temperature */
    HERON_ROOM = 2,     /* lent output shorter than what goes in it: the needed length */
    HERON_LENGTH = 3,   /* a read message of wrong length: its length */
    HERON_END = 4,      /* the last two bytes are not LF CR */
    HERON_CHECKSUM = 5, /* the checksum is wrong */
    HERON_CONTENTS = 6, /* contents no writer writes: the first wrong field or item */
    HERON_DROPPED = 7,  /* a line is dropped */
    HERON_SETTING = 8,  /* a setting out of range: the lowest item */
    HERON_TOO_LONG = 9, /* a message of a stream longer than a cutter holds */
    HERON_FORM = 10,    /* a line of a capture of other form */
    HERON_LOST = 11,    /* a new line's zoom thousandths do not divide by ten */
    HERON_NO_PORT = 12, /* a port number that is neither 0 nor 1 */
    HERON_STATE = 16    /* a handed-in state, collector or cutter that is not valid */
};

/* What a number says; any number has an answer. */
static inline const char *heron_refusal_name(uint32_t number)
{
    switch (number) {
    case HERON_DONE: return "done";
    case HERON_FIELD: return "field out of range";
    case HERON_ROOM: return "output too short";
    case HERON_LENGTH: return "message of wrong length";
    case HERON_END: return "last two bytes not LF CR";
    case HERON_CHECKSUM: return "checksum wrong";
    case HERON_CONTENTS: return "contents no writer writes";
    case HERON_DROPPED: return "line dropped";
    case HERON_SETTING: return "setting out of range";
    case HERON_TOO_LONG: return "message too long";
    case HERON_FORM: return "line of other form";
    case HERON_LOST: return "thousandths lost";
    case HERON_NO_PORT: return "no such port";
    case HERON_STATE: return "state not valid";
    default: return "no refusal number";
    }
}

/* ---- answers */

/* number: 0 or the refusal. value: what comes with it. */
typedef struct heron_answer {
    uint32_t number;
    uint64_t value;
} heron_answer;

/* number: 0 or 1. Refused: field. Done: value. */
typedef struct heron_converted {
    uint32_t number;
    uint32_t field;
    int32_t value;
} heron_converted;

/* ---- what the messages hold */

/* A record. Distances and the pupil are in 0.1 inch or 1 mm, by the display unit, which a record does not say. */
typedef struct heron_record {
    uint32_t focus;      /*  1 focus distance, 0..9999999 */
    uint32_t aperture;   /*  2 true aperture x100, 0..4095 */
    uint32_t stop;       /*  3 ring stop x10, 0..99 or a multiple of 10 in 100..250 */
    uint32_t tenth;      /*  4 tenth of a stop past it, 0..9 */
    uint32_t focal;      /*  5 effective focal length in mm, 0..1023 */
    uint32_t hyperfocal; /*  6 hyperfocal distance, 0..9999999 */
    uint32_t near;       /*  7 near distance, 0..9999999 */
    uint32_t far;        /*  8 far distance, 0..9999999 */
    uint32_t view;       /*  9 field of view x10 in degrees, 0..4095 */
    int32_t pupil;       /* 10 entrance pupil, -999..999 */
    uint32_t zoom;       /* 11 normalised zoom x1000, 0..1000 */
    uint8_t serial[HERON_SERIAL_LEN]; /* 12 bytes 20..7E hex, no terminating zero */
} heron_record;

/* Fixed data. Texts hold bytes 20..7E hex and have no terminating zero. */
typedef struct heron_fixed {
    uint8_t serial[HERON_SERIAL_LEN];   /* 1 */
    uint8_t owner[HERON_OWNER_LEN];     /* 2 filled up with spaces */
    uint8_t kind;                       /* 3 lens type, P (prime) or Z (zoom) */
    uint32_t focal;                     /* 4 focal length in mm, 0..999 */
    uint32_t maximum;                   /* 5 maximum focal length in mm, 0..999 */
    uint8_t letter;                     /* 6 start-up letter, I, M, B or b */
    uint32_t transmission;              /* 7 transmission factor, 0..99 */
    uint8_t version[HERON_VERSION_LEN]; /* 8 */
} heron_fixed;

/* ---- a received line */

/* The bytes received since the last carriage return. A driver keeps one, all zero at first. */
typedef struct heron_line {
    uint8_t bytes[HERON_LINE_LEN];
    size_t len;    /* how many of them count, at most HERON_LINE_LEN */
    bool overlong; /* more came than a line keeps */
} heron_line;

/* number: 0 or 16. ended: a carriage return ended the line. line: that line, else all zero. */
typedef struct heron_collected {
    uint32_t number;
    bool ended;
    heron_line line;
} heron_collected;

/* ---- a stream in pieces */

/* The bytes of a stream since its last LF CR. Whoever reads a stream keeps one, all zero at first. */
typedef struct heron_cutter {
    uint8_t bytes[HERON_CUTTER_LEN];
    size_t len; /* how many of them count; one more than HERON_CUTTER_LEN: the message at hand is too long */
} heron_cutter;

/* number: 0 or the refusal. value: what comes with it. used: how many bytes of the piece were taken, the rest is
 * to be handed in again. ended: a message ended with the last of them, and number and value are its. */
typedef struct heron_cut {
    uint32_t number;
    uint64_t value;
    size_t used;
    bool ended;
} heron_cut;

/* A recorder's settings. */
typedef struct heron_setup {
    bool packed;   /* records are packed, else text */
    bool checksum; /* they carry checksums */
} heron_setup;

/* A recorder between calls. */
typedef struct heron_recorder {
    heron_cutter cutter;
    heron_setup setup;
    bool sent;   /* what it had to send was handed out */
    bool opened; /* a message of fixed data was accepted */
} heron_recorder;

/* As heron_cut. opening: the message was read as fixed data, else as a record. */
typedef struct heron_recorded {
    uint32_t number;
    uint64_t value;
    size_t used;
    bool ended;
    bool opening;
} heron_recorded;

/* The same with the cutter or the recorder for what follows: what the functions ending in _value hand back. */
typedef struct heron_cut_value {
    uint32_t number;
    uint64_t value;
    size_t used;
    bool ended;
    heron_cutter cutter;
} heron_cut_value;

typedef struct heron_send_value {
    uint32_t number;
    uint64_t value;
    heron_recorder recorder;
} heron_send_value;

typedef struct heron_take_value {
    uint32_t number;
    uint64_t value;
    size_t used;
    bool ended;
    bool opening;
    heron_recorder recorder;
} heron_take_value;

#ifdef __cplusplus
extern "C" {
#endif

/* ---- records */

/* Write a record, as text or packed, to the start of out; bytes past it stay as they were. Done: value is
 * the count of bytes written. Refused, in this order:
 *   1  a field out of range: the lowest; a serial of another length than 9 is field 12
 *   2  out shorter than the message: the needed length */
heron_answer heron_write_text(uint32_t focus, uint32_t aperture, uint32_t stop, uint32_t tenth, uint32_t focal,
                              uint32_t hyperfocal, uint32_t near, uint32_t far, uint32_t view, int32_t pupil,
                              uint32_t zoom, const uint8_t *serial, size_t serial_len, bool checksum,
                              uint8_t *out, size_t out_len);
heron_answer heron_write_packed(uint32_t focus, uint32_t aperture, uint32_t stop, uint32_t tenth, uint32_t focal,
                                uint32_t hyperfocal, uint32_t near, uint32_t far, uint32_t view, int32_t pupil,
                                uint32_t zoom, const uint8_t *serial, size_t serial_len, bool checksum,
                                uint8_t *out, size_t out_len);

/* Read a record's message, LF CR included, into HERON_RECORD_BYTES at the start of out; bytes past them stay
 * as they were. heron_record_unpack makes a struct of them. Done: value is that count. Refused, in this order:
 *   3  the message has another length: its length
 *   4  its last two bytes are not LF CR
 *   5  its checksum is wrong (checksum mode only)
 *   6  contents no writer writes: the first wrong field, 1..12; a tag counts to the field after it
 *   2  out shorter than HERON_RECORD_BYTES: that
 * Other makers' minus zero for the entrance pupil, E-000 or 60 40 packed, is read as 0; written again it is plus. */
heron_answer heron_read_text(const uint8_t *message, size_t len, bool checksum, uint8_t *out, size_t out_len);
heron_answer heron_read_packed(const uint8_t *message, size_t len, bool checksum, uint8_t *out, size_t out_len);

/* ---- packed records as text */

/* Write a packed record's message as a text record's to the start of out; bytes past it stay as they were. One checksum
 * mode is for both: with it the packed message has HERON_PACKED_LEN_CHECKSUM bytes and the text HERON_TEXT_LEN_CHECKSUM,
 * without it HERON_PACKED_LEN and HERON_TEXT_LEN. Done: value is the count of bytes written. Refused, in this order:
 *   3, 4, 5, 6  as heron_read_packed
 *   2  out shorter than the text message: the needed length
 * Minus zero for the entrance pupil, 60 40, comes out as E+000.
 * heron_packed_to_text goes straight from the packed bytes to the text, and looks for what is wrong only where something is;
 * heron_packed_to_text_by_record reads a record and writes it. They answer alike and leave the same bytes, whatever they are
 * handed. */
heron_answer heron_packed_to_text(const uint8_t *message, size_t len, bool checksum, uint8_t *out, size_t out_len);
heron_answer heron_packed_to_text_by_record(const uint8_t *message, size_t len, bool checksum,
                                            uint8_t *out, size_t out_len);

/* ---- old text records */

/* An old line is a text record of old zoom firmware, HERON_OLD_LEN bytes with its LF CR: as a present one, but without S and
 * the serial, and with the zoom as z and x.xx, 0.00 to 1.00. Neither carries a checksum here. heron_read_text refuses every
 * old line by 3. A line of firmware 1.22 has S and x.xx together and is as long as a present one: it is refused by 6 with
 * field 11, and by heron_old_to_new by 3.
 *
 * heron_old_to_new writes an old line in the present form to the start of out; bytes past it stay as they were. The zoom's
 * hundredths times ten are its thousandths, and S and the serial are added. Done: value is HERON_TEXT_LEN. Refused, in this
 * order:
 *   3  the line has another length than HERON_OLD_LEN: its length
 *   4  its last two bytes are not LF CR
 *   6  contents no old line has: the first wrong field, 1..11; a tag counts to the field after it
 *   1  with 12: the serial is not HERON_SERIAL_LEN bytes, each 20..7E hex
 *   2  out shorter than HERON_TEXT_LEN: that
 * heron_new_to_old writes a present line in the old form to the start of out; bytes past it stay as they were. The serial
 * is dropped. Done: value is HERON_OLD_LEN. Refused, in this order:
 *   3, 4, 6  as heron_read_text without checksum mode
 *   11  the zoom's thousandths do not divide by ten
 *   2  out shorter than HERON_OLD_LEN: that
 * Both take minus zero for the entrance pupil, E-000, and write plus. Every other line that is moved comes back as it was:
 * forward and back, and back and forward with the same serial. */
heron_answer heron_old_to_new(const uint8_t *message, size_t len, const uint8_t *serial, size_t serial_len,
                              uint8_t *out, size_t out_len);
heron_answer heron_new_to_old(const uint8_t *message, size_t len, uint8_t *out, size_t out_len);

/* ---- fixed data */

/* Writes an N message to the start of out; bytes past it stay as they were. Done: value is the count of bytes
 * written. Refused, in this order:
 *   8  an item out of range: the lowest, 1..8; so is a text of another length than its own
 *   2  out shorter than the message: the needed length */
heron_answer heron_write_fixed(const uint8_t *serial, size_t serial_len, const uint8_t *owner, size_t owner_len,
                               uint8_t kind, uint32_t focal, uint32_t maximum, uint8_t letter, uint32_t transmission,
                               const uint8_t *version, size_t version_len, bool checksum,
                               uint8_t *out, size_t out_len);

/* Reads an N message, LF CR included, into HERON_FIXED_BYTES at the start of out; bytes past them stay as they
 * were. heron_fixed_unpack makes a struct of them. Done: value is that count. Refused as a record's reader:
 * 3, 4, 5, 6 with the first wrong item 1..8, then 2 with HERON_FIXED_BYTES. */
heron_answer heron_read_fixed(const uint8_t *message, size_t len, bool checksum, uint8_t *out, size_t out_len);

/* The owner's name in an N message, without its trailing spaces: value is where it starts in the message and
 * how long it is, which may be 0. Refused as heron_read_fixed: 3, 4, 5, 6. */
heron_answer heron_owner_start(const uint8_t *message, size_t len, bool checksum);
heron_answer heron_owner_len(const uint8_t *message, size_t len, bool checksum);

/* ---- units and checksum */

/* A number of a field (1, 6, 7, 8: a distance; 10: the pupil) in the wanted unit, I (0.1 inch) or M (1 mm): the
 * nearest whole number, halves away from zero; with letters alike the number unchanged. Refused:
 *   1  with 0: a letter that is neither
 *   1  with the field asked for: it is none of the five, or the number is out of its own unit's range
 *      (M: 0..9999999, pupil -999..999; I: 0..3937007, pupil -393..393) */
heron_converted heron_convert(uint32_t field, int32_t number, uint8_t unit, uint8_t wanted);

/* The checksum of some bytes: value is its first character * 256 + its second. Never refused. */
heron_answer heron_checksum(const uint8_t *bytes, size_t len);

/* ---- the line collector */

/* A received byte. A carriage return ends the line: it is handed out, and *line is all zero again. Another byte
 * joins *line; one past HERON_LINE_LEN is not kept and makes it overlong. An ended line is a command only where
 * it is not overlong, and it may be empty. Refused:
 *   16  line->len is past HERON_LINE_LEN: *line stays as it was
 * Your duties, which cannot be checked: line is not null; it points to a whole heron_line, aligned as one, that
 * may be read and written until the call returns; and line->overlong holds 0 or 1. Its bytes and len may be any. */
heron_collected heron_collect(heron_line *line, uint8_t byte);

/* ---- the cutter */

/* Cut a stream that comes in pieces of any length, also empty ones: take the piece up to the first end of a message
 * or, where none ends, all of it. A message ends at each LF CR; lone LF or CR bytes are ordinary. However the pieces
 * fall, the answers are the same. Reader and checksum may be others with each call: a message is read as the call says
 * in which it ends. heron_cut_text and its fellows below do the same with a cutter that you keep.
 * A message that ended is read by the reader that is named, as it is in heron_read_text, heron_read_packed and
 * heron_read_fixed: done, out holds the contents and value is their count. heron_cut_message_value hands out the
 * message itself: value is its length. Where no message ended, number and value are 0 and nothing is written.
 * Refused, in this order:
 *   16  cutter.len is past HERON_CUTTER_LEN + 1: no byte is used, and the cutter stays as it was
 *    9  the message is longer than HERON_CUTTER_LEN
 *    3, 5, 6 as the reader; 4 does not occur
 *    2  out shorter than what goes in it: the needed length
 * After a message's end the cutter is all zero, whatever was answered: a refused message is used up. */
heron_cut_value heron_cut_text_value(heron_cutter cutter, const uint8_t *piece, size_t len, bool checksum,
                                     uint8_t *out, size_t out_len);
heron_cut_value heron_cut_packed_value(heron_cutter cutter, const uint8_t *piece, size_t len, bool checksum,
                                       uint8_t *out, size_t out_len);
heron_cut_value heron_cut_fixed_value(heron_cutter cutter, const uint8_t *piece, size_t len, bool checksum,
                                      uint8_t *out, size_t out_len);
heron_cut_value heron_cut_message_value(heron_cutter cutter, const uint8_t *piece, size_t len,
                                        uint8_t *out, size_t out_len);

/* ---- the recorder */

/* A recorder with the settings that one starts with, text records and checksums off; and one with these settings. It
 * has N CR to send. It reads messages as fixed data, plain, until the reader accepts one, also where out was then too
 * short for it; from then on as records of its form and with its checksums. Never refused. */
heron_recorder heron_recorder_first(void);
heron_recorder heron_recorder_start(bool packed, bool checksum);

/* What it has to send, to the start of out: HERON_SEND_LEN bytes the first time, then none. Done: value is the count.
 * heron_recorder_send below does the same with a recorder that you keep. Refused, and the recorder stays as it was:
 *   16  recorder.cutter.len is past HERON_CUTTER_LEN + 1
 *    2  out shorter than what is to be sent: the needed length
 * Your duty here and below, which cannot be checked: each of the recorder's bools holds 0 or 1. */
heron_send_value heron_recorder_send_value(heron_recorder recorder, uint8_t *out, size_t out_len);

/* Cuts a piece as the cutter does and reads the message that ended, as fixed data into HERON_FIXED_BYTES or as a
 * record into HERON_RECORD_BYTES of out; opening says which. heron_recorder_take below does the same with a recorder
 * that you keep. Refused as the cutter: 16; 9; 3, 5, 6; 2. */
heron_take_value heron_recorder_take_value(heron_recorder recorder, const uint8_t *piece, size_t len,
                                           uint8_t *out, size_t out_len);

#ifdef __cplusplus
}
#endif

/* ---- the cutter and the recorder where you keep them: *cutter or *recorder, which may not be null, is made the one for
 * what follows, whatever was answered */

static inline heron_cut heron_cut_kept(heron_cutter *cutter, const heron_cut_value *made)
{
    heron_cut cut;
    cut.number = made->number;
    cut.value = made->value;
    cut.used = made->used;
    cut.ended = made->ended;
    *cutter = made->cutter;
    return cut;
}

static inline heron_cut heron_cut_text(heron_cutter *cutter, const uint8_t *piece, size_t len, bool checksum,
                                       uint8_t *out, size_t out_len)
{
    heron_cut_value made = heron_cut_text_value(*cutter, piece, len, checksum, out, out_len);
    return heron_cut_kept(cutter, &made);
}

static inline heron_cut heron_cut_packed(heron_cutter *cutter, const uint8_t *piece, size_t len, bool checksum,
                                         uint8_t *out, size_t out_len)
{
    heron_cut_value made = heron_cut_packed_value(*cutter, piece, len, checksum, out, out_len);
    return heron_cut_kept(cutter, &made);
}

static inline heron_cut heron_cut_fixed(heron_cutter *cutter, const uint8_t *piece, size_t len, bool checksum,
                                        uint8_t *out, size_t out_len)
{
    heron_cut_value made = heron_cut_fixed_value(*cutter, piece, len, checksum, out, out_len);
    return heron_cut_kept(cutter, &made);
}

/* The message itself: value its length; 9, then 2. */
static inline heron_cut heron_cut_message(heron_cutter *cutter, const uint8_t *piece, size_t len,
                                          uint8_t *out, size_t out_len)
{
    heron_cut_value made = heron_cut_message_value(*cutter, piece, len, out, out_len);
    return heron_cut_kept(cutter, &made);
}

static inline heron_answer heron_recorder_send(heron_recorder *recorder, uint8_t *out, size_t out_len)
{
    heron_send_value made = heron_recorder_send_value(*recorder, out, out_len);
    heron_answer answer;
    answer.number = made.number;
    answer.value = made.value;
    *recorder = made.recorder;
    return answer;
}

static inline heron_recorded heron_recorder_take(heron_recorder *recorder, const uint8_t *piece, size_t len,
                                                 uint8_t *out, size_t out_len)
{
    heron_take_value made = heron_recorder_take_value(*recorder, piece, len, out, out_len);
    heron_recorded recorded;
    recorded.number = made.number;
    recorded.value = made.value;
    recorded.used = made.used;
    recorded.ended = made.ended;
    recorded.opening = made.opening;
    *recorder = made.recorder;
    return recorded;
}

/* ---- the readers' bytes as structs */

/* A number of two or four bytes, lowest first. */
static inline uint32_t heron_u16_at(const uint8_t *bytes)
{
    return (uint32_t)bytes[0] | (uint32_t)bytes[1] << 8;
}

static inline uint32_t heron_u32_at(const uint8_t *bytes)
{
    return heron_u16_at(bytes) | heron_u16_at(bytes + 2) << 16;
}

/* A signed one, two's complement. */
static inline int32_t heron_i32_at(const uint8_t *bytes)
{
    uint32_t bits = heron_u32_at(bytes);
    return bits <= INT32_MAX ? (int32_t)bits : -(int32_t)(UINT32_MAX - bits) - 1;
}

/* The record in HERON_RECORD_BYTES: fields 1 to 11, four bytes each, then the serial. */
static inline heron_record heron_record_unpack(const uint8_t *bytes)
{
    heron_record r;
    r.focus = heron_u32_at(bytes);
    r.aperture = heron_u32_at(bytes + 4);
    r.stop = heron_u32_at(bytes + 8);
    r.tenth = heron_u32_at(bytes + 12);
    r.focal = heron_u32_at(bytes + 16);
    r.hyperfocal = heron_u32_at(bytes + 20);
    r.near = heron_u32_at(bytes + 24);
    r.far = heron_u32_at(bytes + 28);
    r.view = heron_u32_at(bytes + 32);
    r.pupil = heron_i32_at(bytes + 36);
    r.zoom = heron_u32_at(bytes + 40);
    memcpy(r.serial, bytes + 44, HERON_SERIAL_LEN);
    return r;
}

/* The fixed data in HERON_FIXED_BYTES: the items in order, focal lengths in two bytes. */
static inline heron_fixed heron_fixed_unpack(const uint8_t *bytes)
{
    heron_fixed f;
    memcpy(f.serial, bytes, HERON_SERIAL_LEN);
    memcpy(f.owner, bytes + 9, HERON_OWNER_LEN);
    f.kind = bytes[40];
    f.focal = heron_u16_at(bytes + 41);
    f.maximum = heron_u16_at(bytes + 43);
    f.letter = bytes[45];
    f.transmission = bytes[46];
    memcpy(f.version, bytes + 47, HERON_VERSION_LEN);
    return f;
}

/* ---- the same entries on structs: as above, but a reader lends its own output, so 2 does not occur */

static inline heron_answer heron_record_to_text(const heron_record *r, bool checksum, uint8_t *out, size_t out_len)
{
    return heron_write_text(r->focus, r->aperture, r->stop, r->tenth, r->focal, r->hyperfocal, r->near, r->far,
                            r->view, r->pupil, r->zoom, r->serial, HERON_SERIAL_LEN, checksum, out, out_len);
}

static inline heron_answer heron_record_to_packed(const heron_record *r, bool checksum, uint8_t *out, size_t out_len)
{
    return heron_write_packed(r->focus, r->aperture, r->stop, r->tenth, r->focal, r->hyperfocal, r->near, r->far,
                              r->view, r->pupil, r->zoom, r->serial, HERON_SERIAL_LEN, checksum, out, out_len);
}

static inline heron_answer heron_fixed_to_message(const heron_fixed *f, bool checksum, uint8_t *out, size_t out_len)
{
    return heron_write_fixed(f->serial, HERON_SERIAL_LEN, f->owner, HERON_OWNER_LEN, f->kind, f->focal, f->maximum,
                             f->letter, f->transmission, f->version, HERON_VERSION_LEN, checksum, out, out_len);
}

/* Refused, *r or *f stays as it was. */
static inline heron_answer heron_record_from_text(const uint8_t *message, size_t len, bool checksum, heron_record *r)
{
    uint8_t bytes[HERON_RECORD_BYTES];
    heron_answer a = heron_read_text(message, len, checksum, bytes, sizeof bytes);
    if (a.number == HERON_DONE)
        *r = heron_record_unpack(bytes);
    return a;
}

static inline heron_answer heron_record_from_packed(const uint8_t *message, size_t len, bool checksum, heron_record *r)
{
    uint8_t bytes[HERON_RECORD_BYTES];
    heron_answer a = heron_read_packed(message, len, checksum, bytes, sizeof bytes);
    if (a.number == HERON_DONE)
        *r = heron_record_unpack(bytes);
    return a;
}

static inline heron_answer heron_fixed_from_message(const uint8_t *message, size_t len, bool checksum, heron_fixed *f)
{
    uint8_t bytes[HERON_FIXED_BYTES];
    heron_answer a = heron_read_fixed(message, len, checksum, bytes, sizeof bytes);
    if (a.number == HERON_DONE)
        *f = heron_fixed_unpack(bytes);
    return a;
}

#endif
