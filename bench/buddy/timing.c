#define _POSIX_C_SOURCE 199309L /* for clock_gettime */
#include "timing.h"

#include "buddy.h"
#include "check.h"

#include <bdd.h>
#include <planner.h>
#include <stdio.h>
#include <stdlib.h>
#include <time.h>

enum { MOST_RUNS = 10001, TRIALS = 7 };

/* What is timed. */
enum { LIBRARY, WHOLE, KEPT, AND_ALONE, TIMES };

typedef struct row {
    const char *name;
    int steps, pairs, reached, inner;
    double median[TIMES], least[TIMES];
} row;

static double now(void)
{
    struct timespec t;
    clock_gettime(CLOCK_MONOTONIC, &t);
    return (double)t.tv_sec * 1e6 + (double)t.tv_nsec / 1e3;
}

static uint32_t work[MOST_PAIRS];
static uint8_t buffer[MOST_FILE];
static outcome by_buddy;

/* What is done with a case. */
typedef struct job {
    double (*library)(const pair_case *);
    double (*buddy)(const pair_case *);
    double (*alone)(const pair_case *); /* null: there is nothing to be timed alone */
} job;

static double conjoin_by_library(const pair_case *p)
{
    planner_answer answer;
    double begin = now();
    planner_conjoin(p->chart.bytes, p->chart.len, p->rules.bytes, p->rules.len, p->more.bytes, p->more.len, work,
                    MOST_PAIRS, buffer, MOST_FILE, &answer);
    return now() - begin;
}

static double reduce_by_library(const pair_case *p)
{
    planner_answer answer;
    double begin = now();
    planner_reduce(p->chart.bytes, p->chart.len, p->drawer.bytes, p->drawer.len, buffer, MOST_FILE, &answer);
    return now() - begin;
}

/* Reads both files, conjoins and writes. */
static double conjoin_by_buddy(const pair_case *p)
{
    double begin = now();
    buddy_conjoin(&by_buddy, &p->rules, &p->more);
    return now() - begin;
}

/* Reads the file, which reduces it, and writes. */
static double reduce_by_buddy(const pair_case *p)
{
    double begin = now();
    buddy_write(&by_buddy, buddy_read(&p->drawer));
    return now() - begin;
}

/* The conjunction of two diagrams that are there, all caches empty. */
static double time_and(const pair_case *p)
{
    int first = bdd_addref(buddy_read(&p->rules)), second = bdd_addref(buddy_read(&p->more));
    double begin, taken;
    buddy_forget();
    begin = now();
    bdd_and(first, second);
    taken = now() - begin;
    bdd_delref(first);
    bdd_delref(second);
    return taken;
}

static const job conjoining = {conjoin_by_library, conjoin_by_buddy, time_and};
static const job reducing = {reduce_by_library, reduce_by_buddy, NULL};

/* One time of each kind. Those without results of earlier runs begin with empty caches and tables. */
static void time_once(const job *j, const pair_case *p, double *times)
{
    j->library(p); /* fills the processor's caches, as the runs before do for BuDDy */
    times[LIBRARY] = j->library(p);
    buddy_forget();
    times[WHOLE] = j->buddy(p);
    times[KEPT] = j->buddy(p);
    times[AND_ALONE] = j->alone == NULL ? 0 : j->alone(p);
}

static int by_size(const void *a, const void *b)
{
    double x = *(const double *)a, y = *(const double *)b;
    return (x > y) - (x < y);
}

static void time_case(row *w, const job *j, const pair_case *p, int runs)
{
    static double times[TIMES][MOST_RUNS];
    double once[TIMES];
    int run, kind;
    for (run = -1; run < runs; run++) { /* the first is not counted */
        time_once(j, p, once);
        for (kind = 0; kind < TIMES && run >= 0; kind++) {
            times[kind][run] = once[kind];
        }
    }
    buddy_expect_no_collection();
    for (kind = 0; kind < TIMES; kind++) {
        qsort(times[kind], (size_t)runs, sizeof(double), by_size);
        w->median[kind] = times[kind][runs / 2];
        w->least[kind] = times[kind][0];
    }
}

static void describe(row *w, const pair_case *p, int inner)
{
    w->name = p->name;
    w->steps = p->first.steps;
    w->pairs = (p->first.inner + 2) * (p->second.inner + 2);
    w->reached = reached_pairs(&p->first, &p->second);
    w->inner = inner;
}

static void print_row(const row *w, const double *times)
{
    printf("%-32s %5d %7d %8d %6d %9.1f %9.1f %9.1f %9.1f %6.2f\n", w->name, w->steps, w->pairs, w->reached, w->inner,
           times[LIBRARY], times[WHOLE], times[KEPT], times[AND_ALONE], times[LIBRARY] / times[WHOLE]);
}

static void print_table(const row *rows, int count, int least)
{
    int i;
    printf("%-32s %5s %7s %8s %6s %9s %9s %9s %9s %6s\n", "case", "steps", "pairs", "reached", "nodes", "library",
           "BuDDy", "kept", "and alone", "ratio");
    for (i = 0; i < count; i++) {
        print_row(&rows[i], least ? rows[i].least : rows[i].median);
    }
}

static void print_reductions(const row *rows, int count, int least)
{
    int i;
    printf("%-32s %5s %7s %8s %9s %9s %9s %6s\n", "case", "steps", "nodes", "reduced", "library", "BuDDy", "kept",
           "ratio");
    for (i = 0; i < count; i++) {
        const row *w = &rows[i];
        const double *times = least ? w->least : w->median;
        printf("%-32s %5d %7d %8d %9.1f %9.1f %9.1f %6.2f\n", w->name, w->steps, w->reached, w->inner, times[LIBRARY],
               times[WHOLE], times[KEPT], times[LIBRARY] / times[WHOLE]);
    }
}

static const char legend[] =
    "pairs      references of file 2 x references of file 3: the work entries\n"
    "reached    pairs of inner nodes that a walk through both files meets\n"
    "nodes      inner nodes of the result; above 510 the library refuses it and BuDDy's stays unwritten\n"
    "library    planner_conjoin: reads and checks the chart and both files, conjoins, writes\n"
    "BuDDy      reads both files unchecked, bdd_and, writes; nothing known from earlier runs (bdd_gbc before each)\n"
    "kept       the same once more, with all results of the run before still in the caches\n"
    "and alone  bdd_and of diagrams read before, with empty caches\n"
    "ratio      library / BuDDy\n";

static const char legend_of_reductions[] =
    "nodes      inner nodes of the file\n"
    "reduced    inner nodes of the result\n"
    "library    planner_reduce: reads and checks the chart and the file, reduces, writes\n"
    "BuDDy      reads the file unchecked, which reduces it, and writes; nothing known from earlier runs\n"
    "kept       the same once more, with all results of the run before still in the caches\n";

/* Starts BuDDy with tables of some sizes and leaves it with those that make it fastest. */
static void start_at_best(const pair_case *p)
{
    static const int nodes[] = {2, 4}, cache[] = {1, 2, 4}; /* halves of what the pairs and the files' nodes take */
    diagram first, second;
    int half, best = 0, i;
    double least = 0;
    buddy_start(16 * MOST_NODES, 16 * MOST_NODES, p->first.steps);
    buddy_reduce(&first, &p->rules, p->first.steps);
    buddy_reduce(&second, &p->more, p->first.steps);
    half = reached_pairs(&first, &second) / 2 + 2 * MOST_NODES;
    for (i = 0; i < 6; i++) {
        row w;
        buddy_start(nodes[i / 3] * half, cache[i % 3] * half, p->first.steps);
        time_case(&w, &conjoining, p, TRIALS);
        if (i == 0 || w.least[WHOLE] < least) {
            least = w.least[WHOLE];
            best = i;
        }
    }
    buddy_start(nodes[best / 3] * half, cache[best % 3] * half, p->first.steps);
}

static row *rows_for(int count)
{
    row *rows = calloc((size_t)count, sizeof rows[0]);
    if (rows == NULL) {
        fputs("no memory\n", stderr);
        exit(2);
    }
    return rows;
}

/* The same table twice: of the medians, then of the least times. */
static void print_times(void (*table)(const row *, int, int), const row *rows, int count, int runs)
{
    printf("\nMedian of %d runs, us\n\n", runs);
    table(rows, count, 0);
    printf("\nLeast of %d runs, us\n\n", runs);
    table(rows, count, 1);
}

static int time_conjunctions(int runs)
{
    static pair_case p;
    int count = timed_count(), different = 0, inner, i;
    row *rows = rows_for(count);
    for (i = 0; i < count; i++) {
        make_timed(&p, i);
        start_at_best(&p);
        different += check_case(&p, p.name, &inner);
        describe(&rows[i], &p, inner);
        time_case(&rows[i], &conjoining, &p, runs);
        buddy_end();
    }
    printf("\nConjunctions\n%s", legend);
    print_times(print_table, rows, count, runs);
    free(rows);
    return different;
}

static int time_reductions(int runs)
{
    static pair_case p;
    int count = timed_reductions(), different = 0, inner, i;
    row *rows = rows_for(count);
    for (i = 0; i < count; i++) {
        make_timed_reduction(&p, i);
        buddy_start(4 * MOST_NODES, 4 * MOST_NODES, p.third.steps);
        different += check_reduction(&p, p.name, &inner);
        rows[i].name = p.name;
        rows[i].steps = p.third.steps;
        rows[i].reached = p.third.inner;
        rows[i].inner = inner;
        time_case(&rows[i], &reducing, &p, runs);
        buddy_end();
    }
    printf("\nReductions\n%s", legend_of_reductions);
    print_times(print_reductions, rows, count, runs);
    free(rows);
    return different;
}

int time_cases(int runs)
{
    runs = runs < MOST_RUNS ? runs : MOST_RUNS;
    return time_conjunctions(runs) + time_reductions(runs);
}
