/*
 * Plans for many starts and ends on one chart, in one call, and prints a line for each:
 *
 *     cycles-c CHART RULES [START END]...
 *
 * A line has the cost of a cheapest legal plan and how many pairs its search settled,
 *
 *     start 0 end 4 cost 200 settled 4
 *
 * or the number of the refusal: 4 where the start or the end is no stage of the chart, 8 where no plan is legal:
 *
 *     start 4 end 0 refused 8 settled 0
 *
 * Where a file is refused no line is printed but the refusal, as `plan` does; the bytes of the refused field go to standard
 * error. A file that is missing counts as empty. The exit status is 0 if the list was answered, 1 for a refused file, 2 where
 * writing the output fails, for bad arguments and where there is no memory.
 */
#include "files.h"

#include <planner.h>

#include <stdio.h>
#include <stdlib.h>

const char *const program = "cycles-c";

static void print_cycle(const planner_cycle *cycle)
{
    printf("start %u end %u ", (unsigned)cycle->start, (unsigned)cycle->end);
    if (cycle->number == PLANNER_ACCEPTED) {
        printf("cost %lu", (unsigned long)cycle->cost);
    } else {
        printf("refused %lu", (unsigned long)cycle->number);
    }
    printf(" settled %zu\n", cycle->count);
}

/* Fills and prints the list, in space that the files were asked for. The exit status. */
static int run(file chart, file rules, planner_space space, planner_cycle *list, size_t count)
{
    enum { SLICES = 6 };
    uint32_t *work[SLICES];
    planner_answer answer;
    size_t i;
    for (i = 0; i < SLICES; i++) {
        work[i] = allocate(space.work, sizeof *work[i]);
    }
    planner_cycles(chart.bytes, chart.len, rules.bytes, rules.len,
                   work[0], space.work, work[1], space.work, work[2], space.work,
                   work[3], space.work, work[4], space.work, work[5], space.work,
                   list, count, &answer);
    if (answer.number != PLANNER_ACCEPTED) {
        show_refusal(chart, rules, answer.number, answer.file, answer.place);
    } else {
        for (i = 0; i < count; i++) {
            print_cycle(&list[i]);
        }
    }
    for (i = 0; i < SLICES; i++) {
        free(work[i]);
    }
    return answer.number == PLANNER_ACCEPTED ? 0 : 1;
}

int main(int argc, char **argv)
{
    file chart, rules;
    planner_space space;
    planner_cycle *list;
    size_t count, i;
    int status;
    if (argc < 3 || argc % 2 == 0) {
        fputs("usage: cycles-c CHART RULES [START END]...\n", stderr);
        return 2;
    }
    count = ((size_t)argc - 3) / 2;
    list = allocate(count, sizeof *list);
    for (i = 0; i < count; i++) {
        list[i].start = read_number("stage", argv[3 + 2 * i]);
        list[i].end = read_number("stage", argv[4 + 2 * i]);
    }
    chart = read_file(argv[1]);
    rules = read_file(argv[2]);
    if (planner_space_needed(chart.bytes, chart.len, rules.bytes, rules.len, &space) != PLANNER_ACCEPTED) {
        show_refusal(chart, rules, space.number, space.file, space.place);
        status = 1;
    } else {
        status = run(chart, rules, space, list, count);
    }
    free(list);
    free(chart.bytes);
    free(rules.bytes);
    return finish(status);
}
