/* Judges a sample: judge L U K F MEASUREMENTS, with - for a limit or an F that is absent. */
#include <errno.h>
#include <stdio.h>
#include <stdlib.h>
#include <string.h>

#include "listening.h"

static bool is_given(const char *text)
{
    return strcmp(text, "-") != 0;
}

/* Ends the program where the text is no whole number of 32 bits, so that no other number is judged in its place. */
static int32_t number(const char *text)
{
    char *end;
    errno = 0;
    long value = strtol(text, &end, 10);
    if (end == text || *end != '\0' || errno != 0 || value < INT32_MIN || value > INT32_MAX) {
        fprintf(stderr, "'%s' is no whole number of 32 bits\n", text);
        exit(1);
    }
    return (int32_t)value;
}

static int32_t number_or_0(const char *text)
{
    return is_given(text) ? number(text) : 0;
}

static const char *yes(bool is)
{
    return is ? "yes" : "no";
}

int main(int argc, char **argv)
{
    if (argc < 5) {
        fprintf(stderr, "judge L U K F MEASUREMENTS, with - for a limit or an F that is absent\n");
        return 1;
    }
    int32_t values[argc];
    size_t length = 0;
    for (int at = 5; at < argc; at++) {
        values[length++] = number(argv[at]);
    }

    listening_judgement is = listening_judge(values, length, is_given(argv[1]), number_or_0(argv[1]), is_given(argv[2]),
                                             number_or_0(argv[2]), (uint32_t)number(argv[3]), is_given(argv[4]),
                                             (uint32_t)number_or_0(argv[4]));
    if (is.refusal != 0) {
        printf("refused %u\n", (unsigned)is.refusal);
        return 1;
    }
    printf("outside %u, to upper %d, to lower %d\n", (unsigned)is.outside, (int)is.to_upper, (int)is.to_lower);
    printf("none outside: %s, k met: %s, F met: %s\n", yes(is.none_outside), yes(is.k_met), yes(is.f_met));
    return 0;
}
