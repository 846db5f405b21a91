#include "cases.h"

/* ---- one diagram of any shape ---- */

static int smaller(int a, int b)
{
    return a < b ? a : b;
}

static int draw_size(random_state *r, int most)
{
    return chance(r, 1, 4) ? most : chance(r, 1, 2) ? between(r, 1, most) : between(r, 1, smaller(most, 8));
}

static void some_chain(diagram *d, random_state *r, int nodes)
{
    int steps[MOST_STEPS], count = smaller(nodes, d->steps);
    draw_steps(r, 0, d->steps, count, steps);
    chain(d, r, steps, count, below(r, 4), 1);
}

static void some_count(diagram *d, random_state *r, int nodes)
{
    int steps[MOST_STEPS], count, least, most;
    most = below(r, smaller(d->steps, 20));
    count = smaller(d->steps, nodes / (most + 1));
    least = chance(r, 1, 2) ? 0 : between(r, 0, most);
    if (count == 0) {
        count = 1;
    }
    draw_steps(r, 0, d->steps, count, steps);
    counted(d, steps, count, least, most);
}

static void some_parity(diagram *d, random_state *r, int nodes)
{
    int steps[MOST_STEPS], count = smaller((nodes + 1) / 2, d->steps);
    draw_steps(r, 0, d->steps, count, steps);
    parity(d, steps, count, below(r, 2));
}

static void some_needs(diagram *d, random_state *r, int nodes)
{
    int steps[MOST_STEPS], rules = smaller(nodes / 2, d->steps / 2);
    draw_steps(r, 0, d->steps, 2 * rules, steps);
    needs(d, r, steps, rules);
}

/* A tree over nodes of the last step that are all alike, but for few. */
static void some_alike(diagram *d, random_state *r, int nodes)
{
    unsigned leaves[1 << 8];
    int steps[MOST_STEPS], depth = 0, i;
    while (depth < 8 && 4 << depth <= nodes + 2 && depth + 1 < d->steps) {
        depth++;
    }
    draw_steps(r, 0, d->steps - 1, depth, steps);
    for (i = 0; i < 1 << depth; i++) {
        leaves[i] = i == 255 ? leaves[254] : add(d, d->steps - 1, 0, 1);
    }
    if (chance(r, 1, 2)) {
        leaves[below(r, 1 << depth)] = (unsigned)below(r, 2);
    }
    tree(d, steps, depth, leaves);
}

/* A diagram over the chart's steps, at most so many nodes; some of them may be padding. */
static void any_diagram(diagram *d, random_state *r, int steps, int nodes)
{
    static void (*const shapes[])(diagram *, random_state *, int) = {
        some_chain, some_count, some_parity, some_needs, some_alike, layered, layered, tangled, tangled};
    clear(d, steps);
    if (steps == 0) {
        d->root = (unsigned)below(r, 2);
        return;
    }
    shapes[below(r, sizeof shapes / sizeof shapes[0])](d, r, nodes);
}

/* The same without padding. */
static void some_diagram(diagram *d, random_state *r, int steps, int nodes)
{
    diagram any;
    any_diagram(&any, r, steps, nodes);
    stripped(d, &any);
}

/* ---- pairs ---- */

static void independent(pair_case *c, random_state *r, int steps, int nodes)
{
    some_diagram(&c->first, r, steps, nodes);
    some_diagram(&c->second, r, steps, chance(r, 1, 2) ? nodes : draw_size(r, MOST_INNER));
}

static void equal(pair_case *c, random_state *r, int steps, int nodes)
{
    some_diagram(&c->first, r, steps, nodes);
    c->second = c->first;
}

static void opposed(pair_case *c, random_state *r, int steps, int nodes)
{
    some_diagram(&c->first, r, steps, nodes);
    complement(&c->second, &c->first);
}

static void constant(pair_case *c, random_state *r, int steps, int nodes)
{
    some_diagram(&c->first, r, steps, nodes);
    if (chance(r, 1, 2)) {
        clear(&c->second, steps);
    } else {
        some_diagram(&c->second, r, steps, draw_size(r, 16)); /* none of its nodes is arrived at */
    }
    c->second.root = (unsigned)below(r, 2);
}

/* The same again, with nodes to spare. */
static void strewn_equal(pair_case *c, random_state *r, int steps, int nodes)
{
    some_diagram(&c->first, r, steps, nodes);
    strewn(&c->second, r, &c->first);
}

static void strewn_opposed(pair_case *c, random_state *r, int steps, int nodes)
{
    diagram opposite;
    some_diagram(&c->first, r, steps, nodes);
    complement(&opposite, &c->first);
    strewn(&c->second, r, &opposite);
}

static void strewn_both(pair_case *c, random_state *r, int steps, int nodes)
{
    diagram first, second;
    some_diagram(&first, r, steps, nodes);
    some_diagram(&second, r, steps, nodes);
    strewn(&c->first, r, &first);
    strewn(&c->second, r, &second);
}

/* One node, or one edge, of the second is another. */
static void nearly_equal(pair_case *c, random_state *r, int steps, int nodes)
{
    diagram other;
    some_diagram(&c->first, r, steps, nodes);
    other = c->first;
    if (other.inner > 0) {
        node *n = &other.nodes[below(r, other.inner)];
        uint16_t lo = n->lo;
        n->lo = chance(r, 1, 2) ? n->hi : (uint16_t)below(r, 2);
        n->hi = chance(r, 1, 2) ? lo : n->hi;
    }
    stripped(&c->second, &other);
}

/* Chains of different steps: the result has as many nodes as both together, which is the limit or near it. */
static void at_the_limit(pair_case *c, random_state *r, int steps, int nodes)
{
    int drawn[MOST_STEPS], own[2][MOST_STEPS], count[2] = {0, 0}, total, i;
    (void)nodes;
    total = smaller(steps, between(r, MOST_INNER - 2, MOST_INNER + 2));
    draw_steps(r, 0, steps, total, drawn);
    for (i = 0; i < total; i++) {
        int side = chance(r, 1, 2);
        if (count[side] == MOST_INNER) {
            side = 1 - side;
        }
        own[side][count[side]++] = drawn[i];
    }
    clear(&c->first, steps);
    clear(&c->second, steps);
    chain(&c->first, r, own[0], count[0], below(r, 2), 1);
    chain(&c->second, r, own[1], count[1], below(r, 2), 1);
}

static const int *steps_from(int first)
{
    static int steps[MOST_STEPS];
    int i;
    for (i = 0; first + i < MOST_STEPS; i++) {
        steps[i] = first + i;
    }
    return steps;
}

/* What a tree and a chain have to do with each other. */
enum { EXCLUDED, IMPLIED, OPEN };

/*
 * About half of all pairs are reached, and files of 510 nodes cannot reach many more: each node of a chain beside each
 * of 255 nodes that a tree leads to. The chain ends at a last step that must be there. EXCLUDED: all ends of the tree
 * say that it must be absent, so that no set passes both, and only the last step shows it. IMPLIED: they all say yes
 * where it is there, so that the chain is the result. OPEN: the last step is left out, and the result has a node for
 * each pair.
 */
static void tree_by_chain(pair_case *c, random_state *r, int steps, int nodes, int how)
{
    unsigned leaves[1 << 8], rest = how == IMPLIED;
    int last = steps - 1, i;
    int count = smaller(nodes, smaller(last - 262, MOST_INNER - 1));
    if (count < 1) {
        opposed(c, r, steps, nodes);
        return;
    }
    clear(&c->first, steps);
    clear(&c->second, steps);
    chain(&c->second, r, steps_from(8), count, SOME_OF, how == OPEN ? 1 : add(&c->second, last, 0, 1));
    leaves[0] = how == OPEN ? 1 : how == IMPLIED ? add(&c->first, last, 0, 1) : add(&c->first, last, 1, 0);
    for (i = 1; i < 255; i++) {
        leaves[i] = add(&c->first, last - i, i == 1 ? rest : leaves[i - 1], leaves[0]);
    }
    leaves[255] = rest;
    tree(&c->first, steps_from(0), 8, leaves);
}

static void contradiction(pair_case *c, random_state *r, int steps, int nodes)
{
    tree_by_chain(c, r, steps, nodes, EXCLUDED);
}

static void implication(pair_case *c, random_state *r, int steps, int nodes)
{
    tree_by_chain(c, r, steps, nodes, IMPLIED);
}

static void beyond_limit(pair_case *c, random_state *r, int steps, int nodes)
{
    tree_by_chain(c, r, steps, nodes, OPEN);
}

typedef struct kind {
    const char *name;
    void (*make)(pair_case *, random_state *, int, int);
    int weight;
} kind;

static const kind kinds[] = {
    {"independent", independent, 12},
    {"equal", equal, 2},
    {"complement", opposed, 2},
    {"constant", constant, 2},
    {"strewn equal", strewn_equal, 3},
    {"strewn complement", strewn_opposed, 2},
    {"strewn both", strewn_both, 4},
    {"nearly equal", nearly_equal, 4},
    {"at the limit", at_the_limit, 3},
    {"contradiction", contradiction, 1},
    {"implication", implication, 1},
    {"beyond the limit", beyond_limit, 1},
};

static const kind *draw_kind(random_state *r)
{
    const kind *k = kinds;
    int all = 0, drawn;
    size_t i;
    for (i = 0; i < sizeof kinds / sizeof kinds[0]; i++) {
        all += kinds[i].weight;
    }
    for (drawn = below(r, all); drawn >= k->weight; k++) {
        drawn -= k->weight;
    }
    return k;
}

static void write_either(file *f, const diagram *d, random_state *r)
{
    if (chance(r, 1, 8)) {
        write_with_remarks(f, d, r);
    } else {
        write_diagram(f, d);
    }
}

/* A diagram to be reduced: the first one padded, rarely with another verdict at one edge, or any other. */
static void make_drawer(pair_case *c, random_state *r)
{
    diagram other;
    if (chance(r, 1, 4)) {
        any_diagram(&c->third, r, c->first.steps, draw_size(r, MOST_INNER));
    } else {
        padded(&c->third, r, &c->first);
    }
    if (c->third.inner > 0 && chance(r, 1, 8)) {
        c->third.nodes[below(r, c->third.inner)].lo = (uint16_t)below(r, 2);
    }
    if (chance(r, 1, 3)) {
        other = c->third;
        shuffled(&c->third, r, &other);
    }
    write_either(&c->drawer, &c->third, r);
}

/* Files 2 and 3 may change places, and a file's nodes their order. */
static void write_case(pair_case *c, random_state *r)
{
    diagram other;
    if (chance(r, 1, 2)) {
        other = c->first;
        c->first = c->second;
        c->second = other;
    }
    if (chance(r, 1, 3)) {
        other = c->first;
        shuffled(&c->first, r, &other);
    }
    write_chart(&c->chart, r, c->first.steps);
    write_either(&c->rules, &c->first, r);
    write_either(&c->more, &c->second, r);
    make_drawer(c, r);
}

void make_case(pair_case *c, uint64_t seed, int number)
{
    random_state r = random_of(seed, (uint64_t)number);
    const kind *k = draw_kind(&r);
    int steps = chance(&r, 1, 3)    ? MOST_STEPS
                : chance(&r, 1, 2)  ? between(&r, 0, 12)
                                    : between(&r, 13, MOST_STEPS);
    c->name = k->name;
    k->make(c, &r, steps, draw_size(&r, MOST_INNER));
    write_case(c, &r);
}

/* ---- timed cases ---- */

static void example(pair_case *c, random_state *r)
{
    (void)r;
    clear(&c->first, 6);
    add(&c->first, 0, 1, add(&c->first, 2, 0, 1)); /* step 0 needs step 2 */
    clear(&c->second, 6);
    add(&c->second, 1, 1, add(&c->second, 3, 1, 0)); /* step 3 never with step 1 */
}

static void two_constants(pair_case *c, random_state *r)
{
    (void)r;
    clear(&c->first, MOST_STEPS);
    clear(&c->second, MOST_STEPS);
    c->first.root = c->second.root = 1;
}

static void needs_by_needs(pair_case *c, random_state *r, int steps, int rules)
{
    int drawn[MOST_STEPS];
    clear(&c->first, steps);
    clear(&c->second, steps);
    draw_steps(r, 0, steps, 2 * rules, drawn);
    needs(&c->first, r, drawn, rules);
    draw_steps(r, 0, steps, 2 * rules, drawn);
    needs(&c->second, r, drawn, rules);
}

static void few_needs(pair_case *c, random_state *r)
{
    needs_by_needs(c, r, 64, 5);
}

static void many_needs(pair_case *c, random_state *r)
{
    needs_by_needs(c, r, MOST_STEPS, 60);
}

static void count_by_parity(pair_case *c, random_state *r)
{
    (void)r;
    clear(&c->first, 64);
    clear(&c->second, 64);
    counted(&c->first, steps_from(0), 40, 0, 4);
    parity(&c->second, steps_from(0), 40, 1);
}

/* The second says less than the first, which is the result. */
static void count_by_count(pair_case *c, random_state *r)
{
    int even[50], i;
    (void)r;
    for (i = 0; i < 50; i++) {
        even[i] = 2 * i;
    }
    clear(&c->first, 128);
    clear(&c->second, 128);
    counted(&c->first, steps_from(0), 100, 0, 4);
    counted(&c->second, even, 50, 0, 4);
}

static void chains(pair_case *c, random_state *r)
{
    int steps[2][MOST_INNER / 2], i;
    for (i = 0; i < MOST_INNER / 2; i++) {
        steps[0][i] = 4 * i;
        steps[1][i] = 4 * i + 2;
    }
    clear(&c->first, MOST_STEPS);
    clear(&c->second, MOST_STEPS);
    chain(&c->first, r, steps[0], MOST_INNER / 2, ALL_OF, 1);
    chain(&c->second, r, steps[1], MOST_INNER / 2, NONE_OF, 1);
}

static void full_parity(diagram *d)
{
    clear(d, MOST_STEPS);
    parity(d, steps_from(0), 255, 1);
}

static void equal_files(pair_case *c, random_state *r)
{
    (void)r;
    full_parity(&c->first);
    c->second = c->first;
}

static void complements(pair_case *c, random_state *r)
{
    (void)r;
    full_parity(&c->first);
    complement(&c->second, &c->first);
}

static void two_layered(pair_case *c, random_state *r)
{
    diagram any;
    clear(&any, MOST_STEPS);
    layered(&any, r, MOST_INNER);
    stripped(&c->first, &any);
    clear(&any, MOST_STEPS);
    layered(&any, r, MOST_INNER);
    stripped(&c->second, &any);
}

static void worst_implied(pair_case *c, random_state *r)
{
    implication(c, r, MOST_STEPS, MOST_INNER);
}

static void worst_reduced(pair_case *c, random_state *r)
{
    contradiction(c, r, MOST_STEPS, MOST_INNER);
}

static void worst_refused(pair_case *c, random_state *r)
{
    beyond_limit(c, r, MOST_STEPS, MOST_INNER);
}

static const struct {
    const char *name;
    void (*make)(pair_case *, random_state *);
} timed[] = {
    {"example chart, two rules", example},
    {"constants: reading alone", two_constants},
    {"5 needs x 5 needs", few_needs},
    {"60 needs x 60 needs", many_needs},
    {"at most 4 x parity of 40", count_by_parity},
    {"at most 4 of 100 x 4 of 50", count_by_count},
    {"chain 255 x chain 255", chains},
    {"equal files, parity of 255", equal_files},
    {"complements, parity of 255", complements},
    {"random layers x random layers", two_layered},
    {"tree x chain 509, chain implies", worst_implied},
    {"tree x chain 509, contradiction", worst_reduced},
    {"tree x chain 509, refused (12)", worst_refused},
};

int timed_count(void)
{
    return (int)(sizeof timed / sizeof timed[0]);
}

void make_timed(pair_case *c, int number)
{
    random_state r = random_of(1, 1);
    c->name = timed[number].name;
    timed[number].make(c, &r);
    write_chart(&c->chart, &r, c->first.steps);
    write_diagram(&c->rules, &c->first);
    write_diagram(&c->more, &c->second);
}

/* ---- timed reductions ---- */

/* The example's rule with nodes that it doesn't need. */
static void padded_example(diagram *d, random_state *r)
{
    diagram rule;
    clear(&rule, 6);
    add(&rule, 0, 1, add(&rule, 2, 0, 1));
    padded(d, r, &rule);
}

/* Twice as long as it need be. */
static void padded_needs(diagram *d, random_state *r)
{
    int drawn[MOST_STEPS];
    diagram rule;
    clear(&rule, MOST_STEPS);
    draw_steps(r, 0, MOST_STEPS, 240, drawn);
    needs(&rule, r, drawn, 120);
    padded(d, r, &rule);
}

static void alike_leaves(diagram *d, random_state *r)
{
    unsigned leaves[1 << 8];
    int i;
    (void)r;
    clear(d, MOST_STEPS);
    for (i = 0; i < 1 << 8; i++) {
        leaves[i] = i == 255 ? leaves[254] : add(d, MOST_STEPS - 1, 0, 1);
    }
    tree(d, steps_from(0), 8, leaves);
}

static void reduced_already(diagram *d, random_state *r)
{
    (void)r;
    full_parity(d);
}

static void idle_tests(diagram *d, random_state *r)
{
    unsigned next = 1;
    int i;
    (void)r;
    clear(d, MOST_STEPS);
    for (i = MOST_INNER - 1; i >= 0; i--) {
        next = add(d, 2 * i, next, next);
    }
}

static const struct {
    const char *name;
    void (*make)(diagram *, random_state *);
} reductions[] = {
    {"example chart, a padded rule", padded_example},
    {"120 needs, padded", padded_needs},
    {"tree with 255 alike leaves", alike_leaves},
    {"parity of 255, reduced already", reduced_already},
    {"510 tests that change nothing", idle_tests},
};

int timed_reductions(void)
{
    return (int)(sizeof reductions / sizeof reductions[0]);
}

void make_timed_reduction(pair_case *c, int number)
{
    random_state r = random_of(1, 1);
    c->name = reductions[number].name;
    reductions[number].make(&c->third, &r);
    write_chart(&c->chart, &r, c->third.steps);
    write_diagram(&c->drawer, &c->third);
}
