/*
 * Rule diagrams (ordered binary decision diagrams) and the shapes that are compared. A reference is 0 for no, 1 for yes
 * and 2 + i for nodes[i]. A node stands behind its children, whose steps are larger.
 */
#ifndef DIAGRAM_H
#define DIAGRAM_H

#include "random.h"

enum { MOST_STEPS = 1024, MOST_INNER = 510, MOST_NODES = MOST_INNER + 2 };

typedef struct node {
    uint16_t step, lo, hi;
} node;

typedef struct diagram {
    int steps; /* of the chart: all nodes' steps are below */
    int inner;
    unsigned root;
    node nodes[MOST_INNER];
} diagram;

/* The constant no over so many steps. */
void clear(diagram *d, int steps);

/* A node at the end, if there is room; its reference, which becomes the root. */
unsigned add(diagram *d, int step, unsigned lo, unsigned hi);

/* A reference's step; for 0 and 1 the number of steps. */
int step_of(const diagram *d, unsigned ref);

/* `count` of the steps, ascending, drawn from `first` on. */
void draw_steps(random_state *r, int first, int steps, int count, int *drawn);

/* What a chain asks of its steps; MIXED draws for each. */
enum { ALL_OF, NONE_OF, SOME_OF, MIXED };

/* A node for each of `count` steps. `last` is where the chain ends: 1, or a node of the diagram with a larger step. */
void chain(diagram *d, random_state *r, const int *steps, int count, int asks, unsigned last);

/* Counting the steps that are there: least to most of them. (most + 2) x count nodes at the most. */
void counted(diagram *d, const int *steps, int count, int least, int most);

/* An odd number of the steps is there, or an even one. 2 x count - 1 nodes. */
void parity(diagram *d, const int *steps, int count, int odd);

/* Rules "one step needs the other", each about two neighbours of the steps. 2 nodes for each rule. */
void needs(diagram *d, random_state *r, const int *steps, int rules);

/* Layers of nodes, each layer of one step, with edges to any lower layer. */
void layered(diagram *d, random_state *r, int nodes);

/* Nodes with edges to any lower ones: some are padding or are not arrived at. */
void tangled(diagram *d, random_state *r, int nodes);

/* A tree that tests `depth` steps and leads to the 2^depth references, the first for all steps absent. */
void tree(diagram *d, const int *steps, int depth, const unsigned *leaves);

/* The same verdicts with nodes that are alike, have lo equal to hi or are not arrived at, as far as there is room. */
void padded(diagram *d, random_state *r, const diagram *from);

/* The same verdicts without padding: no node with lo equal to hi, or like an earlier one. */
void stripped(diagram *d, const diagram *from);

/* The same without padding, with nodes that are not arrived at, as far as there is room. */
void strewn(diagram *d, random_state *r, const diagram *from);

/* Where the first node of padding stands in `nodes`; -1 if there is none. */
int first_padding(const diagram *d);

/* The same nodes in another order, children still first. */
void shuffled(diagram *d, random_state *r, const diagram *from);

/* The opposite verdicts. */
void complement(diagram *d, const diagram *from);

/* The pairs of inner nodes to which some set of steps leads in both diagrams. */
int reached_pairs(const diagram *a, const diagram *b);

#endif
