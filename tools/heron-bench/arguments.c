/* The command line: a verb's options and its help, and what is wrong with a word. */
#include "bench.h"

#include <errno.h>
#include <stdarg.h>
#include <stdlib.h>

/* ---- what is said */

/* A line without its end. */
static void say_list(const verb *v, const char *format, va_list list)
{
    fprintf(stderr, "heron-bench%s%s: ", v == NULL ? "" : " ", v == NULL ? "" : v->name);
    vfprintf(stderr, format, list);
}

void say(const verb *v, const char *format, ...)
{
    va_list list;
    va_start(list, format);
    say_list(v, format, list);
    va_end(list);
    fputc('\n', stderr);
}

void wrong_usage(const verb *v, const char *format, ...)
{
    va_list list;
    va_start(list, format);
    say_list(v, format, list);
    va_end(list);
    fprintf(stderr, "; try 'heron-bench%s%s --help'\n", v == NULL ? "" : " ", v == NULL ? "" : v->name);
    exit(USAGE);
}

/* Why standard output could not be written, or 0 where that is not known. */
static int output_error;

bool flushed(void)
{
    if (fflush(stdout) != 0 && output_error == 0)
        output_error = errno;
    return !ferror(stdout);
}

int printed(int status)
{
    if (flushed())
        return status;
    const char *why = output_error == 0 ? NULL : strerror(output_error);
    say(NULL, "standard output cannot be written%s%s", why == NULL ? "" : ": ", why == NULL ? "" : why);
    return USAGE;
}

/* ---- the help */

/* How wide the name of an option stands in the help. */
static int width(const option *o)
{
    return (int)(strlen("  -x, --") + strlen(o->name) + (o->value == NULL ? 0 : 1 + strlen(o->value)));
}

static void print_options(const option *options)
{
    int widest = 0;
    for (const option *o = options; o->letter != 0; o++)
        widest = width(o) > widest ? width(o) : widest;
    for (const option *o = options; o->letter != 0; o++) {
        printf("  -%c, --%s%s%s%*s", o->letter, o->name, o->value == NULL ? "" : " ", o->value == NULL ? "" : o->value,
               widest + 3 - width(o), "");
        for (const char *at = o->says; *at != '\0'; at++)
            if (*at == '\n')
                printf("\n%*s", widest + 3, "");
            else
                putchar(*at);
        putchar('\n');
    }
}

void print_help(const verb *v)
{
    printf("usage: heron-bench %s %s\n\n%s\n", v->name, v->usage, v->does);
    print_options(v->options);
    printf("\n%s\nExample: %s\nExit status: 0 %s, ", v->more, v->example, v->done);
    if (v->refused != NULL)
        printf("1 %s, ", v->refused);
    fputs(STATUS_2, stdout);
}

/* ---- the options */

/* An option by its name, or by its letter where that is one character behind a single dash. */
static const option *find_option(const verb *v, const char *word, size_t len, bool letter)
{
    for (const option *o = v->options; o->letter != 0; o++)
        if (letter ? o->letter == *word : strlen(o->name) == len && memcmp(o->name, word, len) == 0)
            return o;
    return NULL;
}

/* Takes an option, and its value where it has one: what stands behind it in its word, else the next word. */
static char take_option(arguments *a, const option *o, const char *behind)
{
    if (o->letter == 'h') {
        print_help(a->verb);
        exit(printed(DONE));
    }
    if (o->value == NULL)
        return o->letter;
    uint64_t bit = UINT64_C(1) << (o - a->verb->options);
    if ((a->valued & bit) != 0)
        wrong_usage(a->verb, "--%s is given twice", o->name);
    a->valued |= bit;
    if (behind == NULL && *a->next == NULL)
        wrong_usage(a->verb, "--%s is given without its %s: %.*s", o->name, o->value, (int)strcspn(o->says, ";\n"), o->says);
    a->value = behind != NULL ? behind : *a->next++;
    return o->letter;
}

/* Takes --NAME or --NAME=VALUE. */
static char take_name(arguments *a, const char *word)
{
    size_t len = strcspn(word + 2, "=");
    const option *o = find_option(a->verb, word + 2, len, false);
    bool equals = word[2 + len] == '=';
    if (o == NULL)
        wrong_usage(a->verb, "there is no option '%s'", word);
    if (equals && o->value == NULL)
        wrong_usage(a->verb, "--%s takes no value, as in '%s'", o->name, word);
    return take_option(a, o, equals ? word + 2 + len + 1 : NULL);
}

/* Takes the next letter of a word of them; what stands behind it is its value, if it takes one. */
static char take_letter(arguments *a)
{
    const option *o = find_option(a->verb, a->letters, 1, true);
    if (o == NULL)
        wrong_usage(a->verb, "there is no option '-%c'", *a->letters);
    a->letters++;
    const char *behind = *a->letters == '\0' || o->value == NULL ? NULL : a->letters;
    if (behind != NULL)
        a->letters = "";
    return take_option(a, o, behind);
}

/* A dash alone is standard input, and one before a digit is a minus. */
static bool is_option(const char *word)
{
    return word[0] == '-' && word[1] != '\0' && strchr("0123456789", word[1]) == NULL;
}

char next_option(arguments *a)
{
    while (*a->letters == '\0') {
        char *word = *a->next;
        if (word == NULL)
            return 0;
        a->next++;
        if (a->ended || !is_option(word))
            a->words[a->count++] = word;
        else if (strcmp(word, "--") == 0)
            a->ended = true;
        else if (word[1] == '-')
            return take_name(a, word);
        else
            a->letters = word + 1;
    }
    return take_letter(a);
}

form given_form(const arguments *a, int count)
{
    form f = form_called(a->value);
    if ((int)f >= count)
        wrong_usage(a->verb, "--form takes %s, not '%s'", count > FIXED ? "text, packed or fixed" : "text or packed", a->value);
    return f;
}

char given_unit(const arguments *a)
{
    if (strcmp(a->value, "I") != 0 && strcmp(a->value, "M") != 0)
        wrong_usage(a->verb, "--unit takes I or M, not '%s'", a->value);
    return a->value[0];
}

/* ---- numbers */

/* A whole number with nothing before or behind it. */
static bool parse_number(const char *text, long long least, long long most, long long *number)
{
    const char *digits = text[0] == '-' || text[0] == '+' ? text + 1 : text;
    if (*digits == '\0' || digits[strspn(digits, "0123456789")] != '\0')
        return false;
    errno = 0;
    *number = strtoll(text, NULL, 10);
    return errno == 0 && *number >= least && *number <= most;
}

bool parse_u32(const char *text, uint32_t *number)
{
    long long n;
    if (!parse_number(text, 0, UINT32_MAX, &n))
        return false;
    *number = (uint32_t)n;
    return true;
}

bool parse_i32(const char *text, int32_t *number)
{
    long long n;
    if (!parse_number(text, INT32_MIN, INT32_MAX, &n))
        return false;
    *number = (int32_t)n;
    return true;
}
