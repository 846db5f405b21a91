/* The library's results against BuDDy's. */
#ifndef CHECK_H
#define CHECK_H

#include "cases.h"

/*
 * Compares the cases of the seed from number `first` to before `end` and says what they came to. The result is the
 * number of cases that differ; after some of them it stops. The files of the first go to the folder `save`, if that
 * isn't null.
 */
int check_cases(uint64_t seed, int first, int end, const char *save);

/*
 * Compares the conjunction of one case; BuDDy has been started. 0 where both agree; else the difference is told, with
 * the case's label. `inner` gets the number of inner nodes of BuDDy's result.
 */
int check_case(const pair_case *p, const char *label, int *inner);

/* The same of the reduction of its padded file. */
int check_reduction(const pair_case *p, const char *label, int *inner);

#endif
