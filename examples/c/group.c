/*
 * Puts the steps of a chart into groups, which a rule diagram's nodes can then name:
 *
 *     group-c CHART OUT [GROUP]...
 *
 * There is one GROUP for each step, in the order of the chart. The chart goes to OUT with all its fields, but each step names
 * its group (tag 03), whether it named one before or not. A refusal, of CHART or of what would be written, is printed as
 * `plan` does and leaves OUT as it was; the bytes of the refused field go to standard error. So groups that are too high or
 * that fall from one step to the next are refused with 14. A file that is missing counts as empty. The exit status is 0 if
 * OUT was written, 1 for a refusal, 2 where writing fails, for bad arguments and where there is no memory.
 */
#include "files.h"

#include <planner.h>

#include <stdio.h>
#include <stdlib.h>
#include <string.h>

const char *const program = "group-c";

/* The tags of both kinds of steps, and the bytes of a field of each. */
enum { PLAIN = 0x02, GROUPED = 0x03, PLAIN_LEN = 3 + 8, GROUPED_LEN = 3 + 10 };

/* Whether the chart is sound; where not, its refusal is shown. */
static int is_sound(file chart)
{
    static uint8_t yes[] = {0x11, 2, 0, 1, 0}; /* the diagram that allows everything */
    file rules = {yes, sizeof yes};
    planner_space space;
    if (planner_space_needed(chart.bytes, chart.len, rules.bytes, rules.len, &space) == PLANNER_ACCEPTED) {
        return 1;
    }
    show_refusal(chart, rules, space.number, space.file, space.place);
    return 0;
}

static int is_step(const uint8_t *field)
{
    return field[0] == PLAIN || field[0] == GROUPED;
}

/* The bytes of a field with its header. */
static size_t field_len(const uint8_t *field)
{
    return 3 + field[1] + 256 * (size_t)field[2];
}

/* How many steps a sound chart has. */
static size_t count_steps(file chart)
{
    size_t at, count = 0;
    for (at = 0; at < chart.len; at += field_len(chart.bytes + at)) {
        count += is_step(chart.bytes + at) ? 1 : 0;
    }
    return count;
}

/* A sound chart with its steps in these groups, one for each. */
static file grouped(file chart, const uint16_t *groups, size_t count)
{
    file out = {allocate(chart.len + 2 * count, 1), 0};
    size_t at;
    for (at = 0; at < chart.len; at += field_len(chart.bytes + at)) {
        const uint8_t *field = chart.bytes + at;
        uint8_t *to = out.bytes + out.len;
        if (is_step(field)) {
            memcpy(to, field, PLAIN_LEN); /* from, to and cost stand at the same places in both kinds */
            to[0] = GROUPED;
            to[1] = GROUPED_LEN - 3;
            to[PLAIN_LEN] = (uint8_t)(*groups % 256);
            to[PLAIN_LEN + 1] = (uint8_t)(*groups / 256);
            groups++;
            out.len += GROUPED_LEN;
        } else {
            memcpy(to, field, field_len(field));
            out.len += field_len(field);
        }
    }
    return out;
}

/* Writes the chart with its steps in groups, if it is sound then too. The exit status. */
static int write_grouped(const char *path, file chart, const uint16_t *groups, size_t count)
{
    file out = grouped(chart, groups, count);
    int status = 1;
    if (is_sound(out)) {
        status = write_file(path, out.bytes, out.len) ? 0 : 2;
    }
    free(out.bytes);
    return status;
}

int main(int argc, char **argv)
{
    file chart;
    uint16_t *groups;
    size_t count, i;
    int status = 1;
    if (argc < 3) {
        fputs("usage: group-c CHART OUT [GROUP]...\n", stderr);
        return 2;
    }
    count = (size_t)argc - 3;
    groups = allocate(count, sizeof *groups);
    for (i = 0; i < count; i++) {
        groups[i] = read_number("group", argv[3 + i]);
    }
    chart = read_file(argv[1]);
    if (is_sound(chart)) {
        if (count_steps(chart) == count) {
            status = write_grouped(argv[2], chart, groups, count);
        } else {
            fprintf(stderr, "%s: not one group for each step: %zu for %zu\n", program, count, count_steps(chart));
            status = 2;
        }
    }
    free(groups);
    free(chart.bytes);
    return finish(status);
}
