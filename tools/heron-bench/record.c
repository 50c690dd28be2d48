/* heron-bench record: asks the lens on a serial device for its fixed data, then for one record after the other. What is
 * sent first, where a message ends and how it is read is the library's recorder. */
#define _POSIX_C_SOURCE 200809L
#include "bench.h"

#include <errno.h>
#include <fcntl.h>
#include <signal.h>
#include <sys/select.h>
#include <termios.h>
#include <time.h>
#include <unistd.h>

static const option options[] = {
    {'n', "count", "N", "ends after N accepted records"},
    {'f', "form", "FORM", "the records are text or packed; without it text"},
    {'u', "unit", "UNIT", UNIT_SAYS},
    HELP_AND_END,
};

/* In milliseconds: how long the fixed data may take, a byte may stay unsent and the end may last; how long a line is
 * silent that is done; how long a count stays on a terminal. */
enum { PATIENCE = 5000, SILENCE = 100, COUNT_STAYS = 250 };

typedef struct {
    const char *where;
    int device;
    char unit; /* I, M, or 0 for not given */
    heron_recorder recorder;
    bool started;                                /* continuous sending */
    bool answered;                               /* a sign came after the end */
    unsigned long long start, len;               /* of the message at hand: its place, how many bytes came of it */
    uint8_t bytes[HERON_CUTTER_LEN];             /* the first of them */
    unsigned long long records, refused, wanted; /* wanted: 0 for no limit */
    long long counted;                           /* when the count was last put on a terminal */
    int count_width;                             /* of the count that stands there */
} recording;

/* ---- Ctrl-C: kept back but for the time of a wait */

static volatile sig_atomic_t ended;
static sigset_t while_waiting;

static void on_end(int number)
{
    (void)number;
    ended = 1;
}

static const int signals[] = {SIGINT, SIGTERM, SIGHUP};
enum { SIGNALS = sizeof signals / sizeof signals[0] };

static void catch_signals(void)
{
    struct sigaction catch = {.sa_handler = on_end}, ignore = {.sa_handler = SIG_IGN};
    sigset_t kept_back;
    sigemptyset(&kept_back);
    for (int i = 0; i < SIGNALS; i++)
        sigaddset(&kept_back, signals[i]);
    sigprocmask(SIG_BLOCK, &kept_back, &while_waiting);
    for (int i = 0; i < SIGNALS; i++) {
        sigdelset(&while_waiting, signals[i]);
        sigaction(signals[i], &catch, NULL);
    }
    sigaction(SIGPIPE, &ignore, NULL); /* nobody reads what is printed: it ends as on Ctrl-C */
}

/* ---- time */

static long long now(void)
{
    struct timespec t;
    clock_gettime(CLOCK_MONOTONIC, &t);
    return (long long)t.tv_sec * 1000 + t.tv_nsec / 1000000;
}

typedef enum { READABLE, WRITABLE } wanted_side;

/* Waits for the device, for a signal, or so many milliseconds (below 0 for ever); returns whether it was the device. */
static bool wait_for(int device, wanted_side side, long long milliseconds)
{
    fd_set set;
    FD_ZERO(&set);
    FD_SET(device, &set);
    struct timespec most = {(time_t)(milliseconds / 1000), (long)(milliseconds % 1000) * 1000000};
    int ready = pselect(device + 1, side == READABLE ? &set : NULL, side == WRITABLE ? &set : NULL, NULL,
                        milliseconds < 0 ? NULL : &most, &while_waiting);
    /* where the device is ready at once, a signal is still kept back */
    sigset_t kept_back;
    if (sigpending(&kept_back) == 0)
        for (int i = 0; i < SIGNALS; i++)
            if (sigismember(&kept_back, signals[i]) == 1)
                ended = 1;
    return ready > 0;
}

/* ---- the device */

static bool say_wrong(const char *where, const char *wrong)
{
    say(&record_verb, "%s: %s", where, wrong);
    return false;
}

/* What may be done where a device cannot be opened. */
static const char *advice(int error)
{
    switch (error) {
    case ENOENT: return "; is it plugged in? 'ls /dev/tty*' shows what there is";
    case EACCES: return "; 'ls -l' shows the group that may use it: be in it";
    case EBUSY: return "; another program has it: end that";
    default: return "";
    }
}

/* Opens the device and makes it raw, 8N1, 115200; *old gets its settings. What has come already stays. */
static bool open_device(recording *r, struct termios *old)
{
    /* a port that waits for a carrier is opened all the same */
    r->device = open(r->where, O_RDWR | O_NOCTTY | O_NONBLOCK);
    if (r->device < 0) {
        say(&record_verb, "%s: %s%s", r->where, strerror(errno), advice(errno));
        return false;
    }
    if (r->device >= FD_SETSIZE)
        return say_wrong(r->where, strerror(EMFILE));
    if (isatty(r->device) != 1) /* the lens's commands would be written into a file */
        return say_wrong(r->where, "is no serial device; a recorded stream is read by 'heron-bench read'");
    if (tcgetattr(r->device, old) != 0)
        return say_wrong(r->where, strerror(errno));
    struct termios raw = *old;
    raw.c_iflag &= ~(tcflag_t)(IGNBRK | BRKINT | IGNPAR | PARMRK | INPCK | ISTRIP | INLCR | IGNCR | ICRNL | IXON | IXOFF | IXANY);
    raw.c_oflag &= ~(tcflag_t)OPOST;
    raw.c_lflag &= ~(tcflag_t)(ECHO | ECHOE | ECHOK | ECHONL | ICANON | ISIG | IEXTEN);
    raw.c_cflag &= ~(tcflag_t)(CSIZE | PARENB | CSTOPB);
    raw.c_cflag |= CS8 | CREAD | CLOCAL;
    raw.c_cc[VMIN] = 1;
    raw.c_cc[VTIME] = 0;
    cfsetispeed(&raw, B115200);
    cfsetospeed(&raw, B115200);
    if (tcsetattr(r->device, TCSANOW, &raw) != 0)
        return say_wrong(r->where, strerror(errno));
    return true;
}

static bool send_bytes(recording *r, const void *bytes, size_t len)
{
    const uint8_t *at = bytes;
    while (len > 0) {
        ssize_t gone = write(r->device, at, len);
        if (gone >= 0) {
            at += gone;
            len -= (size_t)gone;
        } else if (errno != EINTR && (errno != EAGAIN || !wait_for(r->device, WRITABLE, PATIENCE))) {
            say(&record_verb, "%s: cannot be written: %s", r->where, strerror(errno));
            return false;
        }
    }
    return true;
}

/* What there is of the stream, perhaps nothing yet: the count of bytes, or -1 where the device failed or ended. */
static ssize_t next_piece(recording *r, uint8_t *piece, size_t len)
{
    ssize_t came = read(r->device, piece, len);
    if (came > 0)
        return came;
    if (came < 0 && (errno == EAGAIN || errno == EINTR))
        return 0;
    if (came < 0)
        say(&record_verb, "%s: cannot be read: %s", r->where, strerror(errno));
    else
        say_wrong(r->where, "has ended");
    return -1;
}

/* ---- the count on a terminal, in a line of its own */

static void clear_count(recording *r)
{
    if (r->count_width > 0)
        fprintf(stderr, "\r%*s\r", r->count_width, "");
    r->count_width = 0;
}

static void print_count(recording *r)
{
    if (isatty(STDERR_FILENO) != 1 || now() - r->counted < COUNT_STAYS)
        return;
    r->counted = now();
    clear_count(r);
    r->count_width = fprintf(stderr, "records: %llu, refused: %llu", r->records, r->refused);
}

/* ---- a message */

/* The message at hand, or its first bytes where it is too long. */
static buffer message_of(recording *r)
{
    return (buffer){r->bytes, r->len < sizeof r->bytes ? (size_t)r->len : sizeof r->bytes, sizeof r->bytes};
}

static bool has_checksum(const recording *r, const heron_recorded *taken)
{
    return !taken->opening && r->recorder.setup.checksum;
}

/* Whether the message that ended is one of the signs that answer N, C, Kc and H, which the recorder has no reader for. */
static bool is_sign(const recording *r, const heron_recorded *taken)
{
    return r->len == (has_checksum(r, taken) ? 5 : 3) && strchr("<!?", r->bytes[0]) != NULL;
}

/* Says what a message is and counts it; the recorder's answer to it and the contents that it left are handed in. */
static void report(recording *r, const heron_recorded *taken, const uint8_t *contents)
{
    buffer m = message_of(r);
    bool checksum = has_checksum(r, taken), accepted = false;
    clear_count(r);
    printf("%s: byte %llu: ", r->where, r->start);
    if (taken->number == HERON_TOO_LONG) {
        report_too_long(stdout, r->len);
    } else if (is_sign(r, taken)) {
        accepted = report_reply(&m, checksum);
    } else {
        form f = taken->opening ? FIXED : r->recorder.setup.packed ? PACKED : TEXT;
        accepted = report_form(&m, f, checksum, (heron_answer){taken->number, taken->value}, contents, r->unit);
        r->records += accepted && !taken->opening;
    }
    r->refused += !accepted;
    if (!accepted && taken->number != HERON_TOO_LONG)
        print_bytes(m.bytes, m.len);
}

/* ---- the run */

static bool is_done(const recording *r)
{
    return ended || (r->wanted > 0 && r->records >= r->wanted);
}

/* Hands a piece to the recorder up to the end of a message; returns how many bytes were used. */
static size_t take(recording *r, const uint8_t *piece, size_t len, uint8_t *contents, heron_recorded *taken)
{
    *taken = heron_recorder_take(&r->recorder, piece, len, contents, CONTENTS_BYTES);
    for (size_t i = 0; i < taken->used && r->len + i < sizeof r->bytes; i++)
        r->bytes[r->len + i] = piece[i];
    r->len += taken->used;
    return taken->used;
}

/* A message has ended: it is told, and accepted fixed data starts continuous sending; past the last that is wanted it is dropped. */
static bool take_message(recording *r, const heron_recorded *taken, const uint8_t *contents)
{
    const char *command = r->recorder.setup.packed ? "Kc\r" : "C\r";
    if (is_done(r)) {
        r->answered = r->answered || is_sign(r, taken);
        return true;
    }
    report(r, taken, contents);
    if (!taken->opening || taken->number != HERON_DONE)
        return true;
    r->started = true;
    return send_bytes(r, command, strlen(command));
}

/* Waits so long for a piece of the stream and takes it; false where the device failed or ended. *came: there was one. */
static bool take_piece(recording *r, long long milliseconds, bool *came)
{
    uint8_t piece[4096], contents[CONTENTS_BYTES];
    heron_recorded taken;
    *came = wait_for(r->device, READABLE, milliseconds);
    ssize_t len = *came ? next_piece(r, piece, sizeof piece) : 0;
    if (len < 0)
        return false;
    for (size_t at = 0; at < (size_t)len;) {
        at += take(r, piece + at, (size_t)len - at, contents, &taken);
        if (!taken.ended)
            continue;
        if (!take_message(r, &taken, contents))
            return false;
        r->start += r->len;
        r->len = 0;
    }
    return true;
}

/* Sends what the recorder has to send and takes what comes, until enough came or it is ended. */
static bool record(recording *r)
{
    uint8_t first[HERON_SEND_LEN];
    heron_answer answer = heron_recorder_send(&r->recorder, first, sizeof first);
    if (!send_bytes(r, first, (size_t)answer.value))
        return false;
    long long until = now() + PATIENCE;
    bool told = false, came;
    while (!is_done(r)) {
        long long left = until - now();
        if (!r->started && !told && left <= 0) {
            say(&record_verb, "%s: no fixed data after %d seconds; still waiting: is the lens on, and on this line? Ctrl-C ends it",
                r->where, PATIENCE / 1000);
            told = true;
        }
        print_count(r);
        if (!take_piece(r, r->started || told ? -1 : left, &came))
            return false;
        if (!flushed()) /* nobody reads on */
            ended = 1;
    }
    return true;
}

/* Stops continuous sending; what still comes, up to the answer and a silence, is dropped. */
static bool stop(recording *r)
{
    r->answered = !r->started;
    if (r->started && !send_bytes(r, "H\r", 2))
        return false;
    bool came = true;
    long long left, until = now() + PATIENCE;
    while ((left = until - now()) > 0 && (came || !r->answered))
        if (!take_piece(r, r->answered && left > SILENCE ? SILENCE : left, &came))
            return false;
    return r->answered || say_wrong(r->where, "no answer to H: it may still be sending");
}

static void take_options(recording *r, arguments *a)
{
    uint32_t count = 0;
    for (char letter; (letter = next_option(a)) != 0;)
        switch (letter) {
        case 'n':
            if (!parse_u32(a->value, &count) || count == 0)
                wrong_usage(a->verb, "--count takes " WHOLE_NUMBER " from 1 on, not '%s'", a->value);
            r->wanted = count;
            break;
        case 'f': r->recorder = heron_recorder_start(given_form(a, FIXED) == PACKED, r->recorder.setup.checksum); break;
        case 'u': r->unit = given_unit(a); break;
        }
    if (a->count == 0)
        wrong_usage(a->verb, "say the DEVICE, such as /dev/ttyUSB0");
    if (a->count > 1)
        wrong_usage(a->verb, "takes one DEVICE, not '%s' too", a->words[1]);
    r->where = a->words[0];
}

static int record_command(arguments *a)
{
    recording r = {.device = -1, .recorder = heron_recorder_first()};
    struct termios old;
    take_options(&r, a);
    catch_signals();
    bool opened = open_device(&r, &old);
    bool whole = opened && record(&r) && stop(&r);
    if (opened)
        tcsetattr(r.device, TCSADRAIN, &old);
    if (r.device >= 0)
        close(r.device);
    if (!opened)
        return USAGE;
    clear_count(&r);
    int status = printed(!whole ? USAGE : r.refused > 0 ? REFUSED : DONE);
    fprintf(stderr, "records: %llu, refused: %llu\n", r.records, r.refused);
    return status;
}

const verb record_verb = {
    .name = "record",
    .purpose = "asks the lens on a serial device for its records and shows each",
    .usage = "[OPTION...] DEVICE",
    .does = "Asks the lens on a serial device for its records and shows each.\n",
    .options = options,
    .more = "Sets the device to 115200 bits a second, 8N1, asks for the fixed data (N), then\n"
            "starts continuous sending and prints each message as 'heron-bench read' does.\n"
            "Ctrl-C ends it: sending is stopped and the device is left as it was. The count\n"
            "of records and of refused messages is on standard error, last at the end.\n"
            "Messages carry no checksums. A sign of the lens (<, !, ?) is shown; it is no\n"
            "record and is not refused.\n",
    .example = "heron-bench record --count 10 --unit I /dev/ttyUSB0",
    .done = "all accepted",
    .refused = "some refused",
    .run = record_command,
};
