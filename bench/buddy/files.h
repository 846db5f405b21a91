/* Charts and diagrams as files of tagged fields: a tag, two bytes of length, a body; the low byte of numbers first. */
#ifndef FILES_H
#define FILES_H

#include "diagram.h"

#include <stddef.h>
#include <stdint.h>

enum {
    FILE_ROOM = 32768,                   /* the longest file that the library takes */
    MOST_FILE = 5 + 9 * MOST_INNER,      /* the longest diagram without remarks: 4,595 */
    MOST_PAIRS = MOST_NODES * MOST_NODES /* 262,144 */
};

enum { CHART_HEAD = 0x01, CHART_STEP = 0x02, DIAGRAM_HEAD = 0x11, DIAGRAM_NODE = 0x12, FIRST_REMARK = 0x80 };

typedef struct file {
    uint8_t bytes[FILE_ROOM];
    size_t len;
} file;

unsigned two_bytes(const uint8_t *at);
void put_two_bytes(uint8_t *at, unsigned value);

/* The head with its root, or a node, at a place of a diagram file. Five and nine bytes. */
void put_head(uint8_t *at, unsigned root);
void put_node(uint8_t *at, node n);

/* A chart of so many steps. Which stages they join and what they cost plays no part in a conjunction. */
void write_chart(file *f, random_state *r, int steps);

/* The diagram's nodes in their order. With remarks, fields with text stand between some of them. */
void write_diagram(file *f, const diagram *d);
void write_with_remarks(file *f, const diagram *d, random_state *r);

#endif
