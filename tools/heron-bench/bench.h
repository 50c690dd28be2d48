/* What the parts of heron-bench share: exit statuses, the command line, forms, names, bytes, streams. */
#ifndef BENCH_H
#define BENCH_H

#include <hourheron.h>
#include <stdio.h>

/* Exit statuses. */
enum { DONE = 0, REFUSED = 1, USAGE = 2 };

/* ---- the command line */

typedef struct arguments arguments;

/* An option: its letter and its name, the word for its value or NULL, and what the help says of it. */
typedef struct {
    char letter;
    const char *name;
    const char *value;
    const char *says;
} option;

/* The last of every verb's options, and their end. */
#define HELP_AND_END {'h', "help", NULL, "prints this"}, {0, NULL, NULL, NULL}

/* What more than one verb says of an option. */
#define UNIT_SAYS "the unit of distances and pupil, I (0.1 inch) or M (1 mm)"

/* A verb: what its help says, in this order, and what it does, which returns an exit status. */
typedef struct {
    const char *name;
    const char *purpose; /* in the list of the verbs */
    const char *usage;   /* behind its name */
    const char *does;
    const option *options;
    const char *more; /* what is read and written */
    const char *example;
    const char *done, *refused; /* exit status 0, and 1 or NULL */
    int (*run)(arguments *a);
} verb;

extern const verb read_verb, record_verb, write_verb, archive_verb, transfer_verb, convert_verb, checksum_verb;

/* What stands behind a verb: its options are taken one by one, wherever they stand, and the other words stay. */
struct arguments {
    const verb *verb;
    char **words; /* those that are no option, as far as they were seen */
    int count;    /* of them */
    char **next;
    const char *letters; /* of a word such as -cx, those that were not yet taken */
    bool ended;          /* by --: what follows is no option */
    uint64_t valued;     /* the options with a value that were taken, a bit each */
    const char *value;   /* of the option that was taken last */
};

/* The letter of the next option, or 0 where all are taken. --help is answered here, and ends the program. */
char next_option(arguments *a);

/* What --form gives, one of so many forms, and --unit. */
typedef enum { TEXT, PACKED, FIXED, NO_FORM } form; /* NO_FORM: no form with a reader of its own */
form given_form(const arguments *a, int count);
char given_unit(const arguments *a);

void print_help(const verb *v);

/* The end of a line that says the exit statuses. */
#define STATUS_2 "2 wrong usage or a failure.\n"

/* A line on standard error, with the verb, if there is one, before it. */
void say(const verb *v, const char *format, ...) __attribute__((format(printf, 2, 3)));

/* Says on standard error what is wrong with the command line; ends the program. */
void wrong_usage(const verb *v, const char *format, ...) __attribute__((noreturn, format(printf, 2, 3)));

bool parse_u32(const char *text, uint32_t *number);
bool parse_i32(const char *text, int32_t *number);

/* What the two of them take. */
#define WHOLE_NUMBER "a whole number of at most 32 bits"

/* Flushes standard output; returns whether all that was printed could be written. */
bool flushed(void);

/* The same at the end: the status, or USAGE where it could not, which is told. */
int printed(int status);

/* ---- names */

/* A form: its name on the command line, in words, and how long its message is, plain and with a checksum. */
typedef struct {
    const char *key;
    const char *words;
    size_t length[2];
} form_facts;

extern const form_facts forms[NO_FORM];

/* The form that a word of the command line names, or NO_FORM. */
form form_called(const char *word);

/* A field or an item: its name on the command line, and in words. */
typedef struct {
    const char *key;
    const char *words;
} name;

/* By number: fields 0 (the unit letter) to 13 (the temperature), items 1 to 8. */
enum { FIELDS = 14, ITEMS = 9 };
extern const name fields[FIELDS];
extern const name items[ITEMS];

/* A line such as "refused 6, contents no writer writes: field 3, ring stop". */
void print_refusal(FILE *to, form f, bool checksum, heron_answer refused);

/* The same of a record in a form that has so many bytes. */
void print_record_refusal(FILE *to, size_t length, heron_answer refused);

/* Tells on standard error what a verb refused of its own arguments; returns REFUSED. */
int refuse(const verb *v, form f, bool checksum, heron_answer refused);

/* ---- bytes */

typedef struct {
    uint8_t *bytes;
    size_t len;
    size_t room;
} buffer;

void buffer_add(buffer *b, int byte);

/* Adds the bytes that a text gives in hex, two digits a byte, spaces between bytes. Returns the place of the
 * first character that does not fit, or -1. */
long buffer_add_hex(buffer *b, const char *text, size_t len);

void print_hex(const uint8_t *bytes, size_t len);

/* In quotes; what is no printable character, a quote and a backslash as \xNN. */
void print_quoted(const uint8_t *bytes, size_t len);

/* ---- inputs */

/* Takes an input to its end; false with errno where it cannot be read so far. */
typedef bool (*input_taker)(FILE *in, const char *where, void *with);

/* Hands over standard input. Says on standard error where it is a terminal, and where it cannot be read; returns whether it
 * can. */
bool take_stdin(const verb *v, input_taker take, void *with);

/* Hands over the files that are named, one by one, - for standard input, or standard input where none is named. Says on
 * standard error which of them cannot be read; returns whether all can. */
bool take_inputs(const arguments *a, input_taker take, void *with);

/* What the help of a verb says that reads a stream. */
#define STREAM_MORE \
    "Reads the files, or standard input where none or - is named, as a stream in\n" \
    "which a message ends at LF CR. "

/* A part of a stream: a message, or what stands behind the last one. */
typedef struct {
    bool ended;                    /* it is a message */
    unsigned long long start, len; /* its place, its bytes */
    uint8_t *bytes;                /* NULL where they are more than a cutter holds */
} part;

typedef void (*part_taker)(const part *p, void *with);

/* Hands over the parts of a stream, each as it ends, until standard output cannot be written; false with errno where the
 * stream cannot be read. What was printed goes out before more is waited for. */
bool cut_stream(FILE *in, part_taker take, void *with);

/* Messages, the refused among them, and those that are refused for a length that another option takes. */
typedef struct {
    unsigned long messages;
    unsigned long refused;
    unsigned long other;
} counts;

/* The line with which a command ends. */
void print_counts(FILE *to, const counts *c);

/* Says on standard error, where most messages are of another length, what they may be. */
void say_other(const verb *v, const counts *c, const char *hint);
#define AS_CHECKSUM "as long as with a checksum"
#define AS_PLAIN "as long as without a checksum"

/* ---- messages moved to another form */

/* Writes a message in another form to out, and answers as the library. */
typedef heron_answer (*mover)(const part *p, const void *with, uint8_t *out, size_t out_len);

/* How a command moves messages. */
typedef struct {
    mover make;
    const void *with;
    size_t length;    /* of a message that can be moved */
    size_t other;     /* a length that something else can be done with */
    const char *hint; /* what */
} move;

/* What the help of a verb says that moves messages. */
#define MOVE_MORE \
    STREAM_MORE "Each is written to standard output in its new\n" \
    "form, with its LF CR. A refused one is left out and told on standard error, by\n" \
    "place and number, and so are bytes behind the last LF CR; the rest goes on.\n" \
    "The last line there counts the messages.\n"

/* Reads messages from the inputs and writes each to standard output in the other form, until that cannot be written. Tells
 * on standard error what is not written, by its place, and at last the counts. Returns the exit status. */
int move_inputs(const move *how, const arguments *a);

/* ---- what a message is and holds, as the end of a line that says where it stands, and lines below it */

/* Enough for the contents of any form. */
#define CONTENTS_BYTES HERON_RECORD_BYTES

/* What the form's reader answered: the contents that it left, or the refusal. Returns whether it accepted the message. */
bool report_form(const buffer *m, form f, bool checksum, heron_answer answer, const uint8_t *contents, char unit);

/* Says what a short reply of the lens is. Returns whether nothing is wrong with it. */
bool report_reply(const buffer *m, bool checksum);

/* A message of so many bytes, of which the library keeps none. */
void report_too_long(FILE *to, unsigned long long len);

/* So many bytes behind the last message of a stream. */
void report_tail(FILE *to, unsigned long long len);

/* A line with the bytes of a message that was refused. */
void print_bytes(const uint8_t *bytes, size_t len);

#endif
