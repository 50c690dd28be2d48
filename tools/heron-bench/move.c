/* Messages moved to another form, from the inputs to standard output. What can be moved is the library's to say. */
#define _POSIX_C_SOURCE 200809L
#include "bench.h"

#include <signal.h>

typedef struct {
    const verb *verb;
    const move *move;
    const char *where;
    counts counts;
    bool left_out; /* bytes that are no message */
} moving;

/* The start of a line on standard error that says what is not written. */
static void print_place(const moving *m, const part *p)
{
    fprintf(stderr, "heron-bench %s: %s: byte %llu: ", m->verb->name, m->where, p->start);
}

/* Writes a message in the other form and counts it, or says why it is not written. */
static void take_message(moving *m, const part *p)
{
    uint8_t out[HERON_LONGEST];
    m->counts.messages++;
    heron_answer answer = {HERON_TOO_LONG, 0};
    if (p->bytes != NULL)
        answer = m->move->make(p, m->move->with, out, sizeof out);
    if (answer.number == HERON_DONE) {
        fwrite(out, 1, (size_t)answer.value, stdout);
        return;
    }
    m->counts.refused++;
    m->counts.other += answer.number == HERON_LENGTH && answer.value == m->move->other;
    print_place(m, p);
    if (p->bytes == NULL)
        report_too_long(stderr, p->len);
    else
        print_record_refusal(stderr, m->move->length, answer);
}

static void take_part(const part *p, void *with)
{
    moving *m = with;
    if (p->ended) {
        take_message(m, p);
    } else {
        m->left_out = true;
        print_place(m, p);
        report_tail(stderr, p->len);
        if (p->start == 0)
            say(m->verb, "%s: there is no LF CR in it; 'man heron-bench' has help under LINE ENDS", m->where);
    }
}

static bool move_stream(FILE *in, const char *where, void *with)
{
    moving *m = with;
    m->where = where;
    return cut_stream(in, take_part, m);
}

int move_inputs(const move *how, const arguments *a)
{
    static char room[65536];
    moving m = {.verb = a->verb, .move = how};
    setvbuf(stdout, room, _IOFBF, sizeof room);
    signal(SIGPIPE, SIG_IGN); /* nobody reads what is written: it ends as where it cannot be written */
    bool whole = take_inputs(a, move_stream, &m);
    int status = printed(!whole ? USAGE : m.counts.refused > 0 || m.left_out ? REFUSED : DONE);
    say_other(a->verb, &m.counts, how->hint);
    print_counts(stderr, &m.counts);
    return status;
}
