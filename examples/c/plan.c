/*
 * Plans for two files and prints the answer as the program `plan` does:
 *
 *     plan-c [CHART RULES]      (default chart.bin and rules.bin of the current folder)
 *
 * The program `plan` lends work for 4,096 pairs and answers 7 beyond that; this example lends what the files need. (The
 * program reads 32,769 bytes of a file, which changes no answer: a longer one is 9 all the same.) A file that is missing
 * counts as empty. The bytes of a refused field go to standard error. The exit status is 0 for a plan and for a refusal,
 * 2 where writing the output fails, for bad arguments and where there is no memory.
 */
#include "files.h"

#include <planner.h>

#include <stdio.h>
#include <stdlib.h>

const char *const program = "plan-c";

/* Both searches in space that the files were asked for. */
static void run(file chart, file rules, planner_space space)
{
    enum { SLICES = 9 };
    uint32_t *work[SLICES];
    uint16_t *sweep_plan = allocate(space.plan, sizeof *sweep_plan);
    uint16_t *plan = allocate(space.plan, sizeof *plan);
    planner_answer sweep, guided;
    size_t i;
    for (i = 0; i < SLICES; i++) {
        work[i] = allocate(space.work, sizeof *work[i]);
    }
    planner_both(chart.bytes, chart.len, rules.bytes, rules.len,
                 work[0], space.work, work[1], space.work, work[2], space.work, sweep_plan, space.plan,
                 work[3], space.work, work[4], space.work, work[5], space.work,
                 work[6], space.work, work[7], space.work, work[8], space.work, plan, space.plan,
                 &sweep, &guided);
    if (guided.number != PLANNER_ACCEPTED) {
        show_refusal(chart, rules, guided.number, guided.file, guided.place);
    } else {
        printf("cost %zu\n", guided.cost);
        for (i = 0; i < guided.length; i++) {
            printf("step %u\n", (unsigned)plan[i]);
        }
        printf("settled %zu reached %zu\n", guided.count, sweep.count);
    }
    for (i = 0; i < SLICES; i++) {
        free(work[i]);
    }
    free(plan);
    free(sweep_plan);
}

int main(int argc, char **argv)
{
    file chart, rules;
    planner_space space;
    if (argc != 1 && argc != 3) {
        fputs("usage: plan-c [CHART RULES]\n", stderr);
        return 2;
    }
    chart = read_file(argc == 3 ? argv[1] : "chart.bin");
    rules = read_file(argc == 3 ? argv[2] : "rules.bin");
    if (planner_space_needed(chart.bytes, chart.len, rules.bytes, rules.len, &space) != PLANNER_ACCEPTED) {
        show_refusal(chart, rules, space.number, space.file, space.place);
    } else {
        run(chart, rules, space);
    }
    free(chart.bytes);
    free(rules.bytes);
    return finish(0);
}
