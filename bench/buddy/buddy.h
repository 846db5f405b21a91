/* The conjunction of two diagram files, and the reduction of one, by BuDDy. */
#ifndef BUDDY_H
#define BUDDY_H

#include "files.h"

/* The numbers of a conjunction: accepted, or the reduced diagram has more than 510 inner nodes. */
enum { ACCEPTED = 0, TOO_MANY_NODES = 12 };

/* What a conjunction or a reduction gives: a number and, where that is 0, a file. */
typedef struct outcome {
    unsigned number;
    size_t len;
    uint8_t bytes[MOST_FILE];
} outcome;

/*
 * Starts BuDDy with room for so many nodes beside those of the variables, so many entries in each of its caches and a
 * variable for each step. Whatever was made before is lost.
 */
void buddy_start(int nodes, int cache, int steps);
void buddy_end(void);

/* Room for another `nodes`, at the price of all results where it is scarce. */
void buddy_keep_room(int nodes);

/* No result is kept: nodes that nobody holds are gone and all caches are empty. */
void buddy_forget(void);

/* Reads a diagram file (sound; remarks are passed over) into BuDDy. Nothing is collected in between: there is room. */
int buddy_read(const file *f);

/* The file of a diagram in BuDDy: a walk from the root, lo before hi and each node once. */
void buddy_write(outcome *o, int root);

/* Reads both files, conjoins them and writes the result, whose root is returned. */
int buddy_conjoin(outcome *o, const file *rules, const file *more);

/* The inner nodes of a diagram in BuDDy. */
int buddy_inner(int root);

/* A file's diagram reduced, where it has at most 510 inner nodes. */
void buddy_reduce(diagram *d, const file *f, int steps);

/* Ends the program where BuDDy collected nodes by itself: times and results would not be what they are said to be. */
void buddy_expect_no_collection(void);

#endif
