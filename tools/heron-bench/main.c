/* heron-bench: reads, records, writes and moves the messages of a Cooke /i lens on the bench, over libhourheron. No rule of
 * the messages stands here: ranges, forms, ends, checksums and conversions are the library's. */
#define _POSIX_C_SOURCE 200809L
#include "bench.h"

#include <fcntl.h>
#include <unistd.h>

static const verb *const verbs[] = {
    &read_verb, &record_verb, &write_verb, &archive_verb, &transfer_verb, &convert_verb, &checksum_verb,
};
enum { VERBS = sizeof verbs / sizeof verbs[0] };

static void print_all(FILE *to)
{
    fputs("usage: heron-bench COMMAND [OPTION...] [ARGUMENT...]\n"
          "\n"
          "Reads, records, writes and moves the messages of a Cooke /i lens on the bench.\n"
          "\n", to);
    for (int i = 0; i < VERBS; i++)
        fprintf(to, "  %-10s %s\n", verbs[i]->name, verbs[i]->purpose);
    fputs("\n"
          "  -h, --help      prints this, or behind a command its own help\n"
          "  -V, --version   prints the version\n"
          "\n"
          "'heron-bench help COMMAND' does so too; 'man heron-bench' says it all.\n"
          "\n"
          "Example: heron-bench record --count 10 /dev/ttyUSB0\n"
          "Exit status: 0 done, 1 something refused, " STATUS_2, to);
}

static bool is_word(const char *word, const char *brief, const char *full)
{
    return strcmp(word, brief) == 0 || strcmp(word, full) == 0;
}

static bool asks_help(const char *word)
{
    return is_word(word, "-h", "--help") || strcmp(word, "help") == 0;
}

static const verb *verb_called(const char *word)
{
    char all[256] = "";
    for (int i = 0; i < VERBS; i++) {
        if (strcmp(word, verbs[i]->name) == 0)
            return verbs[i];
        size_t len = strlen(all);
        snprintf(all + len, sizeof all - len, "%s%s", i == 0 ? "" : i + 1 < VERBS ? ", " : " or ", verbs[i]->name);
    }
    if (word[0] == '-')
        wrong_usage(NULL, "there is no option '%s' before the command", word);
    wrong_usage(NULL, "there is no command '%s': say %s", word, all);
}

/* No file that is opened gets the number of a standard one that is closed: what is printed would be sent to the lens. What
 * stands in its place can be neither read nor written. */
static void hold_standard_files(void)
{
    for (int file = STDIN_FILENO; file <= STDERR_FILENO; file++)
        if (fcntl(file, F_GETFD) == -1)
            (void)open("/dev/null", file == STDIN_FILENO ? O_WRONLY : O_RDONLY);
}

int main(int argc, char **argv)
{
    hold_standard_files();
    if (argc < 2) {
        print_all(stderr);
        return USAGE;
    }
    if (is_word(argv[1], "-V", "--version")) {
        puts("heron-bench " HOURHERON_VERSION);
        return printed(DONE);
    }
    if (asks_help(argv[1])) {
        if (argc == 2 || asks_help(argv[2]))
            print_all(stdout);
        else
            print_help(verb_called(argv[2]));
        return printed(DONE);
    }
    const verb *v = verb_called(argv[1]);
    return v->run(&(arguments){.verb = v, .words = argv + 2, .next = argv + 2, .letters = ""});
}
