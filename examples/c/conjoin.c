/*
 * Makes one diagram file of two over the same chart, which says yes exactly where both do:
 *
 *     conjoin-c CHART RULES MORE OUT
 *
 * The file goes to OUT, and the program `plan` takes it as rules.bin. A refusal is printed as `plan` does, with MORE as
 * file 3, and leaves OUT as it was; the bytes of the refused field go to standard error. A file that is missing counts as
 * empty. The exit status is 0 if OUT was written, 1 for a refusal, 2 where writing fails, for bad arguments and where there
 * is no memory.
 */
#include "files.h"

#include <planner.h>

#include <stdio.h>
#include <stdlib.h>

const char *const program = "conjoin-c";

static void show_refusal_of_three(file chart, file rules, file more, planner_answer answer)
{
    if (answer.file == PLANNER_FILE_MORE_RULES) {
        print_refusal(answer.number, answer.file, answer.place);
        /* The call takes two files: the third stands for the second. */
        show_field(chart, more, PLANNER_FILE_RULES, answer.place);
    } else {
        show_refusal(chart, rules, answer.number, answer.file, answer.place);
    }
}

int main(int argc, char **argv)
{
    file chart, rules, more;
    uint32_t *work;
    uint8_t out[PLANNER_MOST_FILE];
    planner_answer answer;
    int status;
    if (argc != 5) {
        fputs("usage: conjoin-c CHART RULES MORE OUT\n", stderr);
        return 2;
    }
    chart = read_file(argv[1]);
    rules = read_file(argv[2]);
    more = read_file(argv[3]);
    work = allocate(PLANNER_MOST_PAIRS, sizeof *work);
    planner_conjoin(chart.bytes, chart.len, rules.bytes, rules.len, more.bytes, more.len,
                    work, PLANNER_MOST_PAIRS, out, sizeof out, &answer);
    if (answer.number != PLANNER_ACCEPTED) {
        show_refusal_of_three(chart, rules, more, answer);
        status = 1;
    } else {
        status = write_file(argv[4], out, answer.length) ? 0 : 2;
    }
    free(work);
    free(chart.bytes);
    free(rules.bytes);
    free(more.bytes);
    return finish(status);
}
