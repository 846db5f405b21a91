/*
 * Compares the library's conjunctions and reductions with BuDDy's and times both. bench/buddy-compare builds and runs
 * this.
 */
#include "check.h"
#include "timing.h"

#include <stdio.h>
#include <stdlib.h>
#include <string.h>

typedef struct options {
    uint64_t seed;
    int first, cases, runs;
    const char *save;
} options;

static void fail(const char *text, const char *word)
{
    fprintf(stderr, "buddy-compare: %s %s (--help lists the options)\n", text, word);
    exit(2);
}

static long number(const char *option, const char *word, long most)
{
    char *end;
    long value = word == NULL ? -1 : strtol(word, &end, 10);
    if (word == NULL || end == word || *end != '\0' || value < 0 || value > most) {
        fail("no number that will do for", option);
    }
    return value;
}

static options read_options(char **words)
{
    options o = {1, 0, 10000, 101, NULL};
    for (; *words != NULL; words++) {
        const char *word = words[0];
        if (strcmp(word, "--time-only") == 0) {
            o.cases = 0;
        } else if (strcmp(word, "--check-only") == 0) {
            o.runs = 0;
        } else if (strcmp(word, "--seed") == 0) {
            o.seed = (uint64_t)number(word, *++words, 2147483647);
        } else if (strcmp(word, "--first") == 0) {
            o.first = (int)number(word, *++words, 1000000000);
        } else if (strcmp(word, "--cases") == 0) {
            o.cases = (int)number(word, *++words, 1000000000);
        } else if (strcmp(word, "--runs") == 0) {
            o.runs = (int)number(word, *++words, 10001);
        } else if (strcmp(word, "--save") == 0 && words[1] != NULL) {
            o.save = *++words;
        } else {
            fail("unknown option", word);
        }
    }
    return o;
}

int main(int argc, char **argv)
{
    options o = read_options(argv + (argc > 0));
    int different = 0;
    if (o.cases > 0) {
        different += check_cases(o.seed, o.first, o.first + o.cases, o.save);
    }
    if (o.runs > 0) {
        different += time_cases(o.runs);
    }
    return different > 0;
}
