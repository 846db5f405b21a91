/*
 * Makes the reduced file of a diagram, also of a padded one, which the other calls refuse with 13:
 *
 *     reduce-c CHART RULES OUT
 *
 * The file goes to OUT, and the program `plan` takes it as rules.bin. It says yes where RULES does. A refusal is printed as
 * `plan` does and leaves OUT as it was; the bytes of the refused field go to standard error. A file that is missing counts
 * as empty. The exit status is 0 if OUT was written, 1 for a refusal, 2 where writing fails, for bad arguments and where
 * there is no memory.
 */
#include "files.h"

#include <planner.h>

#include <stdio.h>
#include <stdlib.h>

const char *const program = "reduce-c";

int main(int argc, char **argv)
{
    file chart, rules;
    uint8_t out[PLANNER_MOST_FILE];
    planner_answer answer;
    int status;
    if (argc != 4) {
        fputs("usage: reduce-c CHART RULES OUT\n", stderr);
        return 2;
    }
    chart = read_file(argv[1]);
    rules = read_file(argv[2]);
    planner_reduce(chart.bytes, chart.len, rules.bytes, rules.len, out, sizeof out, &answer);
    if (answer.number != PLANNER_ACCEPTED) {
        show_refusal(chart, rules, answer.number, answer.file, answer.place);
        status = 1;
    } else {
        status = write_file(argv[3], out, answer.length) ? 0 : 2;
    }
    free(chart.bytes);
    free(rules.bytes);
    return finish(status);
}
