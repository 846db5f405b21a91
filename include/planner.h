/*
 * The socket-cycle planner: the cheapest chain of steps from a start stage to an end stage that a rule diagram allows.
 *
 * Link with target/staticlib/libplanner_c.a, which `tools/build-library` proves and writes. docs/LIBRARY.md has
 * the commands and examples.
 *
 * Every call
 *   - takes its files as bytes, of any length and content: a broken file gets a numbered refusal;
 *   - works in slices that the caller lends: a pointer and a length in entries. Work entries are uint32_t, plan
 *     entries uint16_t, those of a file or a field uint8_t, those of a list planner_cycle. What they hold before the
 *     call does not matter, but for start and end in a list;
 *   - allocates nothing, has no global state and keeps no pointer: calls may run at once on different slices;
 *   - always returns.
 *
 * The caller sees to it that
 *   - no pointer is null, also where the length is 0;
 *   - each pointer is aligned for its type and its slice is as long as the length says;
 *   - slices that are written (work, plan, list, file, field, answers) overlap neither each other nor the files;
 *   - there is room on the stack: PLANNER_STACK bytes are enough for any call.
 */
#ifndef PLANNER_H
#define PLANNER_H

#include <stddef.h>
#include <stdint.h>

#ifdef __cplusplus
extern "C" {
#endif

/* Numbers of an answer: accepted, or the cause of the refusal. The chart is looked at before the diagram, and that before
 * a second one, each for its length and then from its front; then the space; then whether there is a plan or, for a file
 * that is written, how many nodes it has and whether the buffer has room for it.
 *
 * More numbers are coming: every number but PLANNER_ACCEPTED is a refusal, and a switch over them needs a default
 * branch. */
enum {
    PLANNER_ACCEPTED = 0,
    PLANNER_CUT = 1,     /* the file ends inside a field */
    PLANNER_TAG = 2,     /* empty file, a tag that is not of this file, the head not first or there again, a step of another
                            kind than the first */
    PLANNER_LENGTH = 3,  /* the field's length is not that of its tag */
    PLANNER_HEAD = 4,    /* the chart's head breaks a limit; of an entry of a list: start or end is no stage */
    PLANNER_STEP = 5,    /* there is a 1,025th step; a step leaves a stage below that of the step before */
    PLANNER_NODE = 6,    /* an inner node breaks a limit; there is a 511th; the root is no node */
    PLANNER_SPACE = 7,   /* a work slice, the plan slice or the file buffer is too short */
    PLANNER_NO_PLAN = 8, /* no legal plan exists */
    PLANNER_LONG = 9,    /* the file has more than PLANNER_LONGEST_FILE bytes */
    PLANNER_STAGES = 10, /* a step does not lead to a higher stage of the chart */
    PLANNER_COST = 11,   /* a step's cost, as the file has it, is beyond 1,000,000 */
    PLANNER_LARGE = 12,  /* the reduced diagram has more than 510 inner nodes */
    PLANNER_PADDED = 13, /* an inner node has lo equal to hi, or is a double: group, lo and hi of an earlier one */
    PLANNER_GROUP = 14   /* a step's group is above 1,023, or below that of the step before */
};

/* Marks of a file. Where no file is at fault, file and place are 0. */
enum {
    PLANNER_FILE_NONE = 0,
    PLANNER_FILE_CHART = 1,
    PLANNER_FILE_RULES = 2,
    PLANNER_FILE_MORE_RULES = 3 /* the second diagram of planner_conjoin */
};

/* The bytes of the longest file that is taken: remarks, fields of a tag from 80 to FF (hexadecimal) after the head, leave
 * room for text beside steps and nodes. */
#define PLANNER_LONGEST_FILE 32768

/* The ns of a tick. A step takes whole ticks: wherever a cost is told, it is the number in the file rounded up to a
 * multiple of this. */
#define PLANNER_TICK 50

/* A cost slice's entry at a pair that is not reached. */
#define PLANNER_UNREACHED ((uint32_t)4294967295u)

/* Enough for every accepted chart and diagram: 256 stages x 512 nodes, and 255 steps. */
#define PLANNER_MOST_WORK 131072
#define PLANNER_MOST_PLAN 255

/* Enough for the conjunction of any two diagrams: 512 x 512 pairs of nodes, and the bytes of a file of 510 inner nodes,
 * which are enough for any reduction too. */
#define PLANNER_MOST_PAIRS 262144
#define PLANNER_MOST_FILE 4595

/* Bytes of stack that are enough for any call. Peaks measured with an older kit, the same for all files (docs/PERFORMANCE-TABLES.md):
 * planner_sweep 16,136, planner_guided 18,792, planner_cycles 18,728, planner_both 19,368, planner_conjoin 21,128,
 * planner_reduce 21,000, planner_space_needed 12,792, planner_refused_field 88. */
#define PLANNER_STACK 32768

/* What a chart's steps and a diagram's nodes have in common are groups. A step of tag 03 names its group; one of tag 02 is a
 * group alone, and its own number is that of the group. A node of a diagram asks for a group, which is there if at least one
 * of its steps is taken. A plan's entries are numbers of steps, in every chart. */

/*
 * An answer. Accepted: number, file and place are 0. Refused: cost and length are 0, and so is count except under 8.
 */
typedef struct planner_answer {
    size_t number; /* PLANNER_ACCEPTED or the cause, as the call returns it */
    size_t file;   /* the file at fault, 0 where none is */
    size_t place;  /* in it, the byte position of the faulty field's tag; under 9 PLANNER_LONGEST_FILE */
    size_t cost;   /* the plan's cost in ns: the costs of its steps, each rounded up to a multiple of PLANNER_TICK; 0 of a
                      file that is written and of a list */
    size_t length; /* the plan's steps; of a file that is written, its bytes; 0 of a list */
    size_t count;  /* sweep: reached pairs; guided search: settled pairs; also under 8. 0 of a file that is
                      written and of a list */
} planner_answer;

/* The entries that the slices of any search need for two files. */
typedef struct planner_space {
    size_t number; /* PLANNER_ACCEPTED or the refusal of a file: never 7 or 8 */
    size_t file;   /* as in an answer */
    size_t place;
    size_t work;   /* entries of each work slice: stage count x N; 0 where a file is refused */
    size_t plan;   /* entries of a plan slice: stage count - 1; 0 where a file is refused */
} planner_space;

/*
 * Reads both files and says how long the slices must be. All five entries of *space are written; the number is
 * returned. Never 7 or 8.
 */
uint32_t planner_space_needed(const uint8_t *chart, size_t chart_len,
                              const uint8_t *rules, size_t rules_len,
                              planner_space *space);

/*
 * The sweep (dynamic programming): the least cost of every pair and a cheapest legal plan. A pair, a stage and a node
 * of the diagram, is written stage x N + node, where N is the number of inner nodes plus 2.
 *
 * Lent, with the least length; a shorter slice gives 7:
 *   cost, via, nodes   space.work
 *   plan               space.plan
 *
 * All six entries of *answer are written; the number is returned. What the slices hold then:
 *   number        0                                  8                    any other
 *   cost          first space.work entries: least    as under 0           as it was
 *                 cost by pair, or PLANNER_UNREACHED
 *   via, nodes    first space.work entries: free     as under 0           as they were
 *   plan          first answer.length entries: the   as it was            as it was
 *                 plan's step numbers in order
 * All further entries stay as they were.
 */
uint32_t planner_sweep(const uint8_t *chart, size_t chart_len,
                       const uint8_t *rules, size_t rules_len,
                       uint32_t *cost, size_t cost_len,
                       uint32_t *via, size_t via_len,
                       uint32_t *nodes, size_t nodes_len,
                       uint16_t *plan, size_t plan_len,
                       planner_answer *answer);

/*
 * The guided search (A*): a cheapest legal plan. It settles pairs in the order of their least cost plus their estimate
 * and ends at the first goal pair, so no pair whose sum is above the plan's cost is settled.
 *
 * Lent, with the least length; a shorter slice gives 7:
 *   keys, via, heap, pos, stack, log   space.work
 *   plan                               space.plan
 *
 * All six entries of *answer are written; the number is returned. What the slices hold then:
 *   number        0                                  8                    any other
 *   log           first answer.count entries: the    as under 0           as it was
 *                 settled pairs in order
 *   keys .. stack first space.work entries: free     as under 0           as they were
 *   plan          first answer.length entries: the   as it was            as it was
 *                 plan's step numbers in order
 * All further entries stay as they were, those of the log past answer.count included. Where several plans
 * are cheapest, any of them may be given.
 */
uint32_t planner_guided(const uint8_t *chart, size_t chart_len,
                        const uint8_t *rules, size_t rules_len,
                        uint32_t *keys, size_t keys_len,
                        uint32_t *via, size_t via_len,
                        uint32_t *heap, size_t heap_len,
                        uint32_t *pos, size_t pos_len,
                        uint32_t *stack, size_t stack_len,
                        uint32_t *log, size_t log_len,
                        uint16_t *plan, size_t plan_len,
                        planner_answer *answer);

/* A start, an end and space for the answer to them: an entry of the list of planner_cycles. 24 bytes. */
typedef struct planner_cycle {
    uint16_t start;  /* stages of the chart; what is given here stays */
    uint16_t end;
    uint32_t number; /* PLANNER_ACCEPTED, PLANNER_HEAD where start or end is no stage of the chart, or PLANNER_NO_PLAN */
    uint32_t cost;   /* the cost of a cheapest legal plan, as in an answer; 0 under any other number than 0 */
    size_t count;    /* settled pairs, also under 8; 0 under 4 */
} planner_cycle;

/* The layout that the library knows: a compiler with another one refuses this. */
typedef char planner_cycle_has_24_bytes[sizeof(planner_cycle) == 24 ? 1 : -1];
typedef char planner_cycle_end_at_2[offsetof(planner_cycle, end) == 2 ? 1 : -1];
typedef char planner_cycle_number_at_4[offsetof(planner_cycle, number) == 4 ? 1 : -1];
typedef char planner_cycle_cost_at_8[offsetof(planner_cycle, cost) == 8 ? 1 : -1];
typedef char planner_cycle_count_at_16[offsetof(planner_cycle, count) == 16 ? 1 : -1];

/*
 * A list of starts and ends on one chart. For each entry of `list` the guided search runs as if the chart's head had that
 * start and end; its number, cost and count go into the entry. The files are read and their tables filled once for all
 * entries. The list may be empty, but the pointer to it is not null. An entry whose start or end is no stage of the chart
 * gets 4, cost 0 and count 0, and the others are answered all the same. The head's own start and end are checked, and used
 * by no entry.
 *
 * Lent, with the least length; a shorter slice gives 7:
 *   keys, via, heap, pos, stack, log   space.work
 * No plan slice is lent, and no plan is given: ask planner_guided for it. Its number and cost are then the entry's; its
 * count may be another one, since which pairs with a sum equal to the cost are settled is left free.
 *
 * All six entries of *answer are written; the number is returned. Accepted: all six are 0, also where no entry of the
 * list has a plan. What the slices hold then:
 *   number        0                                  any other
 *   list          number, cost and count of every    as it was
 *                 entry written, start and end stay
 *   keys .. log   first space.work entries: free     as they were
 * All further entries stay as they were.
 */
uint32_t planner_cycles(const uint8_t *chart, size_t chart_len,
                        const uint8_t *rules, size_t rules_len,
                        uint32_t *keys, size_t keys_len,
                        uint32_t *via, size_t via_len,
                        uint32_t *heap, size_t heap_len,
                        uint32_t *pos, size_t pos_len,
                        uint32_t *stack, size_t stack_len,
                        uint32_t *log, size_t log_len,
                        planner_cycle *list, size_t list_len,
                        planner_answer *answer);

/*
 * Both searches: the sweep on cost, cost_via, nodes and cost_plan, the guided search on keys to plan. Each has its
 * own answer and is refused for its own slices alone. Where neither answers 7 both have the same number and cost,
 * and guided->count is at most sweep->count. The guided search's number is returned.
 */
uint32_t planner_both(const uint8_t *chart, size_t chart_len,
                      const uint8_t *rules, size_t rules_len,
                      uint32_t *cost, size_t cost_len,
                      uint32_t *cost_via, size_t cost_via_len,
                      uint32_t *nodes, size_t nodes_len,
                      uint16_t *cost_plan, size_t cost_plan_len,
                      uint32_t *keys, size_t keys_len,
                      uint32_t *via, size_t via_len,
                      uint32_t *heap, size_t heap_len,
                      uint32_t *pos, size_t pos_len,
                      uint32_t *stack, size_t stack_len,
                      uint32_t *log, size_t log_len,
                      uint16_t *plan, size_t plan_len,
                      planner_answer *sweep, planner_answer *guided);

/*
 * The conjunction of two diagrams over one chart, `rules` (file 2) and `more` (file 3): a reduced diagram that says yes
 * exactly to the sets of groups to which both say yes, groups without steps included. Its file is written to the front of
 * `file`: the head and the inner nodes, none with lo equal to hi, no two alike, each arrived at from the root, and each
 * behind its children, those of lo first. A plan under that file is one that both files allow, and none that both allow
 * is cheaper.
 *
 * Lent, with the least length; a shorter slice gives 7:
 *   work   N of rules x N of more, where N is the number of inner nodes plus 2; PLANNER_MOST_PAIRS is always enough
 *   file   the bytes of the diagram's file, 5 and 9 for each inner node; PLANNER_MOST_FILE is always enough. Judged last
 *          of all, after 12
 *
 * All six entries of *answer are written; the number is returned. Accepted: length is the file's bytes, cost and count
 * are 0. What the slices hold then:
 *   number        0                                  12, and 7 for `file`   any other
 *   work          first entries, N of rules x N of   as under 0             as it was
 *                 more: free
 *   file          first answer.length bytes: the     as it was              as it was
 *                 diagram's file
 * All further entries stay as they were.
 */
uint32_t planner_conjoin(const uint8_t *chart, size_t chart_len,
                         const uint8_t *rules, size_t rules_len,
                         const uint8_t *more, size_t more_len,
                         uint32_t *work, size_t work_len,
                         uint8_t *file, size_t file_len,
                         planner_answer *answer);

/*
 * The reduction of a diagram: a reduced diagram that says yes to the same sets of groups. Its file is written to the front
 * of `file`: the head and the inner nodes, none with lo equal to hi, no two alike, each arrived at from the root, and
 * each behind its children, those of lo first. Every call takes that file, and a plan is legal under it exactly if it is
 * under `rules`. Two files over one chart have the same reduction, byte for byte, exactly if they say yes to the same
 * sets of the chart's groups, those without steps included; a file that this call wrote comes back as it is.
 *
 * This call takes padded files, whose nodes get 13 from the others. All other rules for a chart and a diagram hold here
 * too; 8, 12 and 13 never come.
 *
 * Lent, with the least length; a shorter slice gives 7:
 *   file   the bytes of the reduced diagram's file, 5 and 9 for each inner node, of which `rules` has at least as many;
 *          PLANNER_MOST_FILE is always enough. Judged last of all
 *
 * All six entries of *answer are written; the number is returned. Accepted: length is the file's bytes, cost and count
 * are 0. What the slice holds then:
 *   number        0                                  any other
 *   file          first answer.length bytes: the     as it was
 *                 reduced diagram's file
 * All further bytes stay as they were.
 */
uint32_t planner_reduce(const uint8_t *chart, size_t chart_len,
                        const uint8_t *rules, size_t rules_len,
                        uint8_t *file, size_t file_len,
                        planner_answer *answer);

/*
 * The bytes of the field at a place of a file (PLANNER_FILE_CHART or PLANNER_FILE_RULES): its header and its body, or
 * what the file has of them. The place need not be a field's start. A place at or past the file's end, or another file
 * mark, gives an empty field.
 *
 * Returns the field's whole length and copies its bytes to the front of `field` as far as they fit; further entries of
 * `field` stay as they were. With field_len 0 the call only tells the length. The field is a part of the file: it
 * begins at chart + place or rules + place. For a field of planner_conjoin's file 3 hand that file in as `rules`, with
 * PLANNER_FILE_RULES.
 */
size_t planner_refused_field(const uint8_t *chart, size_t chart_len,
                             const uint8_t *rules, size_t rules_len,
                             uint32_t file, size_t place,
                             uint8_t *field, size_t field_len);

#ifdef __cplusplus
}
#endif

#endif
