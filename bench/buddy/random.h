/* Random numbers from a seed: xorshift with a multiplication behind it (xorshift64*). */
#ifndef RANDOM_H
#define RANDOM_H

#include <stdint.h>

typedef struct random_state {
    uint64_t word; /* never 0 */
} random_state;

/* The numbers of one case: equal for equal seed and number. */
random_state random_of(uint64_t seed, uint64_t number);

uint64_t draw(random_state *r);

/* From 0 to count - 1; 0 where count is 0. */
int below(random_state *r, int count);

/* From least to most, both included. */
int between(random_state *r, int least, int most);

/* True in `hits` of `all` draws. */
int chance(random_state *r, int hits, int all);

#endif
