/* Times of conjunctions and reductions, by the library and by BuDDy, on the timed cases. */
#ifndef TIMING_H
#define TIMING_H

/* Compares every timed case, times it `runs` times and prints tables. The result is the number of cases that differ. */
int time_cases(int runs);

#endif
