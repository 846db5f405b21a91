/* The pairs of diagram files that are conjoined, and the padded files that are reduced. */
#ifndef CASES_H
#define CASES_H

#include "files.h"

typedef struct pair_case {
    const char *name; /* the kind of pair, or the timed case */
    diagram first, second, third;
    file chart, rules, more; /* file 1; the first two diagrams as files 2 and 3, without padding */
    file drawer;             /* the third, to be reduced: mostly it is padded and says what the first does */
} pair_case;

/* The case of a number under a seed. */
void make_case(pair_case *c, uint64_t seed, int number);

/* The timed conjunctions, and the timed reductions, of which only the third diagram is used. */
int timed_count(void);
void make_timed(pair_case *c, int number);
int timed_reductions(void);
void make_timed_reduction(pair_case *c, int number);

#endif
