#include "files.h"

unsigned two_bytes(const uint8_t *at)
{
    return at[0] | (unsigned)at[1] << 8;
}

void put_two_bytes(uint8_t *at, unsigned value)
{
    at[0] = (uint8_t)(value & 255);
    at[1] = (uint8_t)(value >> 8 & 255);
}

static uint8_t *put_field(uint8_t *at, unsigned tag, unsigned len)
{
    at[0] = (uint8_t)tag;
    put_two_bytes(at + 1, len);
    return at + 3;
}

void put_head(uint8_t *at, unsigned root)
{
    put_two_bytes(put_field(at, DIAGRAM_HEAD, 2), root);
}

void put_node(uint8_t *at, node n)
{
    uint8_t *body = put_field(at, DIAGRAM_NODE, 6);
    put_two_bytes(body, n.step);
    put_two_bytes(body + 2, n.lo);
    put_two_bytes(body + 4, n.hi);
}

static void put_step(uint8_t *at, unsigned from, unsigned to, unsigned cost)
{
    uint8_t *body = put_field(at, CHART_STEP, 8);
    put_two_bytes(body, from);
    put_two_bytes(body + 2, to);
    put_two_bytes(body + 4, cost & 65535);
    put_two_bytes(body + 6, cost >> 16);
}

void write_chart(file *f, random_state *r, int steps)
{
    int stages = between(r, 2, 256);
    uint8_t *body = put_field(f->bytes, CHART_HEAD, 6);
    int i;
    put_two_bytes(body, (unsigned)stages);
    put_two_bytes(body + 2, 0);
    put_two_bytes(body + 4, (unsigned)stages - 1);
    f->len = 9;
    for (i = 0; i < steps; i++) {
        int from = i * (stages - 1) / steps;
        put_step(f->bytes + f->len, (unsigned)from, (unsigned)between(r, from + 1, stages - 1),
                 (unsigned)between(r, 0, 1000000));
        f->len += 11;
    }
}

static void write_remark(file *f, random_state *r)
{
    int len = below(r, 20);
    uint8_t *body = put_field(f->bytes + f->len, (unsigned)between(r, FIRST_REMARK, 255), (unsigned)len);
    int i;
    for (i = 0; i < len; i++) {
        body[i] = (uint8_t)below(r, 256);
    }
    f->len += 3 + (size_t)len;
}

static void write_nodes(file *f, const diagram *d, random_state *r)
{
    int i;
    put_head(f->bytes, d->root);
    f->len = 5;
    for (i = 0; i < d->inner; i++) {
        if (r != NULL && chance(r, 1, 4)) {
            write_remark(f, r);
        }
        put_node(f->bytes + f->len, d->nodes[i]);
        f->len += 9;
    }
    if (r != NULL) {
        write_remark(f, r);
    }
}

void write_diagram(file *f, const diagram *d)
{
    write_nodes(f, d, NULL);
}

void write_with_remarks(file *f, const diagram *d, random_state *r)
{
    write_nodes(f, d, r);
}
