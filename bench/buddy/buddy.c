#include "buddy.h"

#include <bdd.h>
#include <stdio.h>
#include <stdlib.h>

/* By node of BuDDy: its reference in the file that is written in walk `walk_number`. */
typedef struct place {
    unsigned walk, ref;
} place;

static place *places;
static unsigned walk_number;
static int own_collections;

/* Takes the place of the handler that prints a line for each collection. */
static void count_collection(int before, bddGbcStat *s)
{
    (void)s;
    own_collections += before;
}

void buddy_start(int nodes, int cache, int steps)
{
    int room = nodes + 2 * steps + 16;
    if (bdd_isrunning()) {
        buddy_end();
    }
    if (bdd_init(room, cache) < 0 || bdd_setvarnum(steps > 0 ? steps : 1) < 0) {
        fputs("BuDDy does not start\n", stderr);
        exit(2);
    }
    bdd_gbc_hook(count_collection);
    own_collections = 0;
    walk_number = 0;
    places = calloc((size_t)bdd_getallocnum(), sizeof places[0]);
    if (places == NULL) {
        fputs("no memory\n", stderr);
        exit(2);
    }
}

void buddy_end(void)
{
    bdd_done();
    free(places);
}

void buddy_forget(void)
{
    bdd_gbc();
    own_collections--;
}

void buddy_keep_room(int nodes)
{
    if (bdd_getallocnum() - bdd_getnodenum() < nodes) {
        buddy_forget();
    }
}

void buddy_expect_no_collection(void)
{
    if (own_collections != 0) {
        fputs("BuDDy had too little room and collected nodes\n", stderr);
        exit(2);
    }
}

int buddy_read(const file *f)
{
    int made[MOST_NODES] = {0, 1};
    int count = 2;
    size_t at;
    for (at = 5; at < f->len; at += 3 + two_bytes(f->bytes + at + 1)) {
        const uint8_t *body = f->bytes + at + 3;
        if (f->bytes[at] == DIAGRAM_NODE) {
            /* As BuDDy's own bdd_load makes a node. */
            made[count++] =
                bdd_ite(bdd_ithvar((int)two_bytes(body)), made[two_bytes(body + 4)], made[two_bytes(body + 2)]);
        }
    }
    return made[two_bytes(f->bytes + 3)];
}

/* Writes what is below a node, then the node; its reference. 0 and 1 are the same in BuDDy. Past the limit it stops. */
static unsigned write_from(outcome *o, int at)
{
    node n;
    if (at < 2 || o->number != ACCEPTED) {
        return (unsigned)at;
    }
    if (places[at].walk == walk_number) {
        return places[at].ref;
    }
    n.step = (uint16_t)bdd_var(at);
    n.lo = (uint16_t)write_from(o, bdd_low(at));
    n.hi = (uint16_t)write_from(o, bdd_high(at));
    if (o->number != ACCEPTED || o->len == MOST_FILE) {
        o->number = TOO_MANY_NODES;
        return 0;
    }
    put_node(o->bytes + o->len, n);
    o->len += 9;
    places[at].walk = walk_number;
    places[at].ref = (unsigned)(o->len - 5) / 9 + 1;
    return places[at].ref;
}

void buddy_write(outcome *o, int root)
{
    unsigned ref;
    walk_number++;
    o->number = ACCEPTED;
    o->len = 5;
    ref = write_from(o, root);
    if (o->number == ACCEPTED) {
        put_head(o->bytes, ref);
    } else {
        o->len = 0;
    }
}

int buddy_conjoin(outcome *o, const file *rules, const file *more)
{
    int first = buddy_read(rules), second = buddy_read(more);
    int both = bdd_and(first, second);
    buddy_write(o, both);
    return both;
}

int buddy_inner(int root)
{
    return bdd_nodecount(root);
}

void buddy_reduce(diagram *d, const file *f, int steps)
{
    outcome o;
    size_t at;
    buddy_write(&o, buddy_read(f));
    clear(d, steps);
    for (at = 5; at < o.len; at += 9) {
        const uint8_t *body = o.bytes + at + 3;
        add(d, (int)two_bytes(body), two_bytes(body + 2), two_bytes(body + 4));
    }
    d->root = two_bytes(o.bytes + 3);
}
