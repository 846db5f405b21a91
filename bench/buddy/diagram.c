#include "diagram.h"

#include <string.h>

void clear(diagram *d, int steps)
{
    d->steps = steps;
    d->inner = 0;
    d->root = 0;
}

unsigned add(diagram *d, int step, unsigned lo, unsigned hi)
{
    if (d->inner < MOST_INNER) {
        node n = {(uint16_t)step, (uint16_t)lo, (uint16_t)hi};
        d->nodes[d->inner++] = n;
    }
    d->root = (unsigned)d->inner + 1;
    return d->root;
}

/* As `add`, but no node with lo equal to hi. */
static unsigned add_needed(diagram *d, int step, unsigned lo, unsigned hi)
{
    if (lo == hi) {
        d->root = lo;
        return lo;
    }
    return add(d, step, lo, hi);
}

/* Where a node stands among the first `count`; -1 if it doesn't. */
static int find(const diagram *d, node n, int count)
{
    int i;
    for (i = 0; i < count; i++) {
        if (d->nodes[i].step == n.step && d->nodes[i].lo == n.lo && d->nodes[i].hi == n.hi) {
            return i;
        }
    }
    return -1;
}

/* As `add_needed`, but no node like an earlier one. */
static unsigned add_once(diagram *d, int step, unsigned lo, unsigned hi)
{
    node n = {(uint16_t)step, (uint16_t)lo, (uint16_t)hi};
    int known = find(d, n, d->inner);
    if (known >= 0) {
        d->root = (unsigned)known + 2;
        return d->root;
    }
    return add_needed(d, step, lo, hi);
}

int first_padding(const diagram *d)
{
    int i;
    for (i = 0; i < d->inner; i++) {
        if (d->nodes[i].lo == d->nodes[i].hi || find(d, d->nodes[i], i) >= 0) {
            return i;
        }
    }
    return -1;
}

int step_of(const diagram *d, unsigned ref)
{
    return ref < 2 ? d->steps : d->nodes[ref - 2].step;
}

void draw_steps(random_state *r, int first, int steps, int count, int *drawn)
{
    int found = 0, step;
    for (step = first; found < count; step++) {
        if (chance(r, count - found, steps - step)) {
            drawn[found++] = step;
        }
    }
}

void chain(diagram *d, random_state *r, const int *steps, int count, int asks, unsigned last)
{
    unsigned next = last;
    int i;
    for (i = count - 1; i >= 0; i--) {
        int ask = asks == MIXED ? below(r, 3) : asks;
        /* Some of no steps is never true. */
        unsigned other = ask == SOME_OF && i == count - 1 ? 0 : next;
        next = ask == ALL_OF    ? add(d, steps[i], 0, next)
               : ask == NONE_OF ? add(d, steps[i], next, 0)
                                : add(d, steps[i], other, last);
    }
    d->root = next;
}

void counted(diagram *d, const int *steps, int count, int least, int most)
{
    unsigned now[MOST_STEPS + 2];
    int i, present;
    for (present = 0; present <= most + 1; present++) {
        now[present] = least <= present && present <= most;
    }
    for (i = count - 1; i >= 0; i--) {
        for (present = 0; present <= most && present <= i; present++) {
            now[present] = add_needed(d, steps[i], now[present], now[present + 1]);
        }
    }
    d->root = now[0];
}

void parity(diagram *d, const int *steps, int count, int odd)
{
    unsigned even_so_far = !odd, odd_so_far = !!odd;
    int i;
    for (i = count - 1; i >= 0; i--) {
        unsigned even = add(d, steps[i], even_so_far, odd_so_far);
        if (i > 0) {
            odd_so_far = add(d, steps[i], odd_so_far, even_so_far);
        }
        even_so_far = even;
    }
    d->root = even_so_far;
}

void needs(diagram *d, random_state *r, const int *steps, int rules)
{
    unsigned next = 1;
    int i;
    for (i = rules - 1; i >= 0; i--) {
        int former = steps[2 * i], latter = steps[2 * i + 1];
        if (chance(r, 1, 2)) {
            next = add(d, former, next, add(d, latter, 0, next)); /* the former needs the latter */
        } else {
            next = add(d, former, add(d, latter, next, 0), next); /* the latter needs the former */
        }
    }
    d->root = next;
}

/* A reference of the first `count`, rarely 0 or 1, often one of the last `near`. */
static unsigned draw_child(random_state *r, int count, int near)
{
    if (count <= 2 || chance(r, 1, 16)) {
        return (unsigned)below(r, 2);
    }
    if (chance(r, 3, 4) && near > 0 && near <= count - 2) {
        return (unsigned)between(r, count - near, count - 1);
    }
    return (unsigned)between(r, 2, count - 1);
}

void layered(diagram *d, random_state *r, int nodes)
{
    int steps[MOST_STEPS];
    int width = between(r, 1, 1 + nodes / 8), layers = nodes / width, last = 0, i;
    if (layers > d->steps) {
        layers = d->steps;
    }
    draw_steps(r, 0, d->steps, layers, steps);
    for (i = layers - 1; i >= 0; i--) {
        int here = i == 0 ? 1 : between(r, 1, 2 * width - 1), below_here = d->inner + 2, k;
        for (k = 0; k < here && d->inner < nodes - (i > 0); k++) {
            unsigned lo = draw_child(r, below_here, last), hi = draw_child(r, below_here, last);
            add(d, steps[i], lo, hi == lo && lo < 2 ? 1 - lo : hi);
        }
        last = d->inner + 2 - below_here;
    }
}

void tangled(diagram *d, random_state *r, int nodes)
{
    int step = d->steps - 1, lower = 2; /* references below `lower` have larger steps */
    while (d->inner < nodes) {
        unsigned lo, hi;
        if (step > 0 && chance(r, 1, 3)) {
            step -= 1 + (chance(r, 1, 4) ? below(r, step) / 8 : 0);
            lower = d->inner + 2;
        }
        lo = draw_child(r, lower, 4);
        hi = chance(r, 1, 16) ? lo : draw_child(r, lower, 4);
        add(d, step, lo, hi);
    }
    if (chance(r, 1, 4)) {
        d->root = (unsigned)below(r, d->inner + 2);
    }
}

void tree(diagram *d, const int *steps, int depth, const unsigned *leaves)
{
    unsigned refs[1 << 8];
    int width = 1 << depth, level, i;
    memcpy(refs, leaves, (size_t)width * sizeof refs[0]);
    for (level = depth - 1; level >= 0; level--) {
        width /= 2;
        for (i = 0; i < width; i++) {
            refs[i] = add(d, steps[level], refs[2 * i], refs[2 * i + 1]);
        }
    }
    d->root = refs[0];
}

/* A way to `ref` for a node of step `above`: the reference, or a new node between them with lo equal to hi. */
static unsigned passed_through(diagram *d, random_state *r, int above, unsigned ref)
{
    int gap = step_of(d, ref) - above - 1;
    return gap > 0 ? add(d, above + 1 + below(r, gap), ref, ref) : ref;
}

void padded(diagram *d, random_state *r, const diagram *from)
{
    unsigned copies[MOST_NODES][2] = {{0, 0}, {1, 1}};
    int spare = MOST_INNER - from->inner, i;
    clear(d, from->steps);
    for (i = 0; i < from->inner; i++) {
        node n = from->nodes[i];
        unsigned lo = copies[n.lo][below(r, 2)], hi = copies[n.hi][below(r, 2)];
        if (spare > 0 && chance(r, 1, 4)) { /* a node that is not arrived at */
            add(d, n.step, lo, hi == 1 ? 0 : 1);
            spare--;
        }
        if (spare > 0 && chance(r, 1, 3)) {
            hi = passed_through(d, r, n.step, hi);
            spare--;
        }
        copies[i + 2][0] = copies[i + 2][1] = add(d, n.step, lo, hi);
        if (spare > 0 && chance(r, 2, 3)) { /* a double */
            copies[i + 2][1] = add(d, n.step, lo, hi);
            spare--;
        }
    }
    d->root = copies[from->root][1];
}

/* Without padding, and with up to `spare` nodes that are not arrived at. */
static void once_each(diagram *d, random_state *r, const diagram *from, int spare)
{
    unsigned moved[MOST_NODES] = {0, 1};
    int i;
    clear(d, from->steps);
    for (i = 0; i < from->inner; i++) {
        node n = from->nodes[i];
        unsigned lo = moved[n.lo], hi = moved[n.hi];
        if (spare > 0 && chance(r, 1, 2)) {
            add_once(d, n.step, lo, hi == 1 ? 0 : 1);
            spare--;
        }
        moved[i + 2] = add_once(d, n.step, lo, hi);
    }
    d->root = moved[from->root];
}

void stripped(diagram *d, const diagram *from)
{
    once_each(d, NULL, from, 0);
}

void strewn(diagram *d, random_state *r, const diagram *from)
{
    once_each(d, r, from, MOST_INNER - from->inner);
}

void shuffled(diagram *d, random_state *r, const diagram *from)
{
    unsigned moved[MOST_NODES] = {0, 1}; /* 0: not yet, for inner nodes */
    clear(d, from->steps);
    while (d->inner < from->inner) {
        int i = below(r, from->inner);
        node n = from->nodes[i];
        /* From a random node on, the next whose children are there. */
        while (moved[i + 2] != 0 || (n.lo > 1 && moved[n.lo] == 0) || (n.hi > 1 && moved[n.hi] == 0)) {
            i = (i + 1) % from->inner;
            n = from->nodes[i];
        }
        moved[i + 2] = add(d, n.step, moved[n.lo], moved[n.hi]);
    }
    d->root = moved[from->root];
}

static uint16_t opposite(unsigned ref)
{
    return (uint16_t)(ref < 2 ? 1 - ref : ref);
}

void complement(diagram *d, const diagram *from)
{
    int i;
    *d = *from;
    d->root = opposite(from->root);
    for (i = 0; i < d->inner; i++) {
        d->nodes[i].lo = opposite(from->nodes[i].lo);
        d->nodes[i].hi = opposite(from->nodes[i].hi);
    }
}

typedef struct walk {
    const diagram *a, *b;
    unsigned char seen[MOST_NODES][MOST_NODES];
    int inner;
} walk;

static void visit(walk *w, unsigned a, unsigned b)
{
    int step_a = step_of(w->a, a), step_b = step_of(w->b, b);
    int step = step_a < step_b ? step_a : step_b;
    if (a == 0 || b == 0 || (a == 1 && b == 1) || w->seen[a][b]) {
        return;
    }
    w->seen[a][b] = 1;
    w->inner += a > 1 && b > 1;
    visit(w, step_a == step ? w->a->nodes[a - 2].lo : a, step_b == step ? w->b->nodes[b - 2].lo : b);
    visit(w, step_a == step ? w->a->nodes[a - 2].hi : a, step_b == step ? w->b->nodes[b - 2].hi : b);
}

int reached_pairs(const diagram *a, const diagram *b)
{
    static walk w;
    memset(&w, 0, sizeof w);
    w.a = a;
    w.b = b;
    visit(&w, a->root, b->root);
    return w.inner;
}
