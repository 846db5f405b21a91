#include "check.h"

#include "buddy.h"

#include <planner.h>
#include <stdio.h>
#include <string.h>

enum {
    GUARD = 64,            /* entries behind a lent slice that are looked at */
    MOST_DIFFERENCES = 10, /* after that many it stops */
    MADE_AT_MOST = MOST_PAIRS + 4 * MOST_NODES, /* nodes that BuDDy makes for one case */
    CACHE = 1 << 18
};

static const uint32_t WORK_FILL = 0xa5c3f00du;
static const uint8_t FILE_FILL = 0xa7;

/* What is lent, and entries behind it. */
static uint32_t work[MOST_PAIRS + GUARD];
static uint8_t buffer[MOST_FILE + GUARD];

/* A call, with the lengths of what it is lent and what it must give. */
typedef struct call {
    const char *label, *name;
    const file *chart, *rules, *more; /* without `more` it is a reduction */
    size_t work_len, file_len;
    size_t work_free; /* entries that may change */
    unsigned number;
    size_t at_file, at_place; /* of the field at fault */
    const outcome *result;    /* what the buffer must hold under number 0 */
} call;

static int differs(const call *c, const char *what, size_t got, size_t wanted)
{
    printf("%s, %s: %s is %zu, not %zu\n", c->label, c->name, what, got, wanted);
    return 1;
}

static int touched(const call *c, const char *slice, size_t at)
{
    printf("%s, %s: entry %zu of the %s must stay and was written\n", c->label, c->name, at, slice);
    return 1;
}

static int check_answer(const call *c, uint32_t returned, const planner_answer *a)
{
    size_t len = c->number == ACCEPTED ? c->result->len : 0;
    return returned != c->number    ? differs(c, "the number returned", returned, c->number)
           : a->number != c->number ? differs(c, "the answer's number", a->number, c->number)
           : a->file != c->at_file  ? differs(c, "the answer's file", a->file, c->at_file)
           : a->place != c->at_place ? differs(c, "the answer's place", a->place, c->at_place)
           : a->cost != 0           ? differs(c, "the answer's cost", a->cost, 0)
           : a->length != len       ? differs(c, "the answer's length", a->length, len)
           : a->count != 0          ? differs(c, "the answer's count", a->count, 0)
                                    : 0;
}

static int check_slices(const call *c)
{
    size_t len = c->number == ACCEPTED ? c->result->len : 0, i;
    for (i = 0; i < len; i++) {
        if (buffer[i] != c->result->bytes[i]) {
            printf("%s, %s: byte %zu of %zu is %u, by BuDDy %u\n", c->label, c->name, i, len, (unsigned)buffer[i],
                   (unsigned)c->result->bytes[i]);
            return 1;
        }
    }
    for (; i < c->file_len + GUARD; i++) {
        if (buffer[i] != FILE_FILL) {
            return touched(c, "buffer", i);
        }
    }
    for (i = c->work_free; i < c->work_len + GUARD; i++) {
        if (work[i] != WORK_FILL) {
            return touched(c, "work slice", i);
        }
    }
    return 0;
}

static int check_call(const call *c)
{
    planner_answer answer;
    uint32_t returned;
    size_t i;
    memset(&answer, 0xee, sizeof answer);
    memset(buffer, FILE_FILL, c->file_len + GUARD);
    for (i = 0; i < c->work_len + GUARD; i++) {
        work[i] = WORK_FILL;
    }
    if (c->more == NULL) {
        returned = planner_reduce(c->chart->bytes, c->chart->len, c->rules->bytes, c->rules->len, buffer, c->file_len,
                                  &answer);
    } else {
        returned = planner_conjoin(c->chart->bytes, c->chart->len, c->rules->bytes, c->rules->len, c->more->bytes,
                                   c->more->len, work, c->work_len, buffer, c->file_len, &answer);
    }
    return check_answer(c, returned, &answer) || check_slices(c);
}

/* The same result, with the files in the other order and slices of just the length needed. */
static int check_exchanged(call c, size_t pairs)
{
    const file *rules = c.rules;
    c.name = "files exchanged, least lengths";
    c.rules = c.more;
    c.more = rules;
    c.work_len = c.work_free = pairs;
    c.file_len = c.result->len;
    return check_call(&c);
}

/* What was written, as a file to be read again. */
static const file *read_again(const outcome *o)
{
    static file result;
    result.len = o->len;
    memcpy(result.bytes, o->bytes, result.len);
    return &result;
}

/* The result under the first file is the result: its file is read again. */
static int check_again(call c, const pair_case *p)
{
    const file *result = read_again(c.result);
    c.name = "the result and file 2";
    c.more = result;
    c.work_free = ((size_t)p->first.inner + 2) * ((result->len - 5) / 9 + 2);
    return check_call(&c);
}

static int check_short_work(call c, size_t pairs)
{
    c.name = "a work entry too few";
    c.work_len = pairs - 1;
    c.work_free = 0;
    c.number = PLANNER_SPACE;
    return check_call(&c);
}

/* A result of too many nodes comes before a buffer that is too short. */
static int check_short_file(call c)
{
    c.name = "a byte too few";
    c.file_len = c.number == ACCEPTED ? c.result->len - 1 : 0;
    c.number = c.number == ACCEPTED ? PLANNER_SPACE : c.number;
    return check_call(&c);
}

/* BuDDy's result, a conjunction or without `more` a reduction, its length held against BuDDy's own count of nodes. */
static int expect(const char *label, const file *rules, const file *more, outcome *expected, int *inner)
{
    int root;
    buddy_keep_room(MADE_AT_MOST);
    if (more == NULL) {
        root = buddy_read(rules);
        buddy_write(expected, root);
    } else {
        root = buddy_conjoin(expected, rules, more);
    }
    *inner = buddy_inner(root);
    buddy_expect_no_collection();
    if ((*inner > MOST_INNER) != (expected->number == TOO_MANY_NODES) ||
        (*inner <= MOST_INNER && expected->len != 5 + 9 * (size_t)*inner)) {
        printf("%s: BuDDy counts %d nodes, %zu bytes were written\n", label, *inner, expected->len);
        return 1;
    }
    return 0;
}

int check_case(const pair_case *p, const char *label, int *inner)
{
    static outcome expected;
    size_t pairs = (size_t)(p->first.inner + 2) * (size_t)(p->second.inner + 2);
    call c = {label, "enough lent", &p->chart, &p->rules, &p->more, MOST_PAIRS, MOST_FILE, pairs, 0, 0, 0, &expected};
    if (expect(label, &p->rules, &p->more, &expected, inner)) {
        return 1;
    }
    c.number = expected.number;
    return check_call(&c) || check_exchanged(c, pairs) || check_short_work(c, pairs) || check_short_file(c) ||
           (c.number == ACCEPTED && check_again(c, p));
}

/* Where a node's field stands in a file. */
static size_t place_of(const file *f, int at)
{
    size_t place = 5;
    while (f->bytes[place] != DIAGRAM_NODE || at-- > 0) {
        place += 3 + two_bytes(f->bytes + place + 1);
    }
    return place;
}

/* A conjunction refuses a padded file, as file 2 and as file 3. */
static int check_padded(call c, const pair_case *p, int padding)
{
    c.name = "padded file 2";
    c.more = &p->rules;
    c.work_len = MOST_PAIRS;
    c.number = PLANNER_PADDED;
    c.at_file = 2;
    c.at_place = place_of(&p->drawer, padding);
    if (check_call(&c)) {
        return 1;
    }
    c.name = "padded file 3";
    c.rules = &p->rules;
    c.more = &p->drawer;
    c.at_file = 3;
    return check_call(&c);
}

/* What was reduced is reduced, in just the bytes that are needed. */
static int check_reduced_again(call c)
{
    c.name = "reduced again";
    c.rules = read_again(c.result);
    c.file_len = c.result->len;
    return check_call(&c);
}

int check_reduction(const pair_case *p, const char *label, int *inner)
{
    static outcome expected;
    call c = {label, "reduced", &p->chart, &p->drawer, NULL, 0, MOST_FILE, 0, ACCEPTED, 0, 0, &expected};
    if (expect(label, &p->drawer, NULL, &expected, inner)) {
        return 1;
    }
    return check_call(&c) || check_short_file(c) || check_reduced_again(c);
}

/* Both, and that padding is refused where it may not be. */
static int check_all(const pair_case *p, const char *label, int *inner, int *reduced)
{
    static const outcome nothing;
    call c = {label, "", &p->chart, &p->drawer, NULL, 0, MOST_FILE, 0, 0, 0, 0, &nothing};
    int padding = first_padding(&p->third);
    return check_case(p, label, inner) || check_reduction(p, label, reduced) ||
           (padding >= 0 && check_padded(c, p, padding));
}

/* What the cases came to. */
typedef struct tally {
    int cases, constant, accepted, limit, just_refused, refused, most_pairs;
    int padded, same, most_left_out; /* of the files that are reduced */
} tally;

/* Whether a file is reduced to what another is reduced to. */
static int mean_the_same(const file *a, const file *b)
{
    buddy_keep_room(4 * MOST_NODES);
    return buddy_read(a) == buddy_read(b);
}

static void count_case(tally *t, const pair_case *p, int inner, int reduced)
{
    int pairs = reached_pairs(&p->first, &p->second), left_out = p->third.inner - reduced;
    t->padded += first_padding(&p->third) >= 0;
    t->same += mean_the_same(&p->rules, &p->drawer);
    t->most_left_out = left_out > t->most_left_out ? left_out : t->most_left_out;
    t->cases++;
    t->constant += inner == 0;
    t->accepted += 0 < inner && inner <= MOST_INNER;
    t->limit += inner == MOST_INNER;
    t->just_refused += inner == MOST_INNER + 1;
    t->refused += inner > MOST_INNER;
    t->most_pairs = pairs > t->most_pairs ? pairs : t->most_pairs;
}

/* 1 where many cases leave out a corner. */
static int print_tally(const tally *t, int different)
{
    int all_corners = t->constant > 0 && t->limit > 0 && t->just_refused > 0 && t->most_pairs >= 130000 &&
                      t->padded > t->cases / 2 && t->same > t->cases / 2 && t->most_left_out >= 500;
    printf("%d cases compared, %d differ. Results: %d constant, %d with 1 to 510 nodes (%d with 510),\n"
           "%d refused with 12 (%d with 511). Up to %d pairs of inner nodes reached.\n"
           "As many files reduced, %d of them padded, up to %d nodes left out; %d mean the same as file 2.\n",
           t->cases, different, t->constant, t->accepted, t->limit, t->refused, t->just_refused, t->most_pairs,
           t->padded, t->most_left_out, t->same);
    if (t->cases >= 1000 && !all_corners && different == 0) {
        puts("The cases fall short of a corner: a constant, 510 nodes, 511 nodes, 130,000 pairs, padded files, files\n"
             "that mean the same, or 500 nodes left out.");
        return 1;
    }
    return 0;
}

static void save_file(const char *folder, const char *name, const file *f)
{
    char path[4096];
    FILE *out;
    snprintf(path, sizeof path, "%s/%s", folder, name);
    out = fopen(path, "wb");
    if (out == NULL || fwrite(f->bytes, 1, f->len, out) != f->len || fclose(out) != 0) {
        fprintf(stderr, "cannot write %s\n", path);
    }
}

static void save_case(const char *folder, const pair_case *p)
{
    save_file(folder, "chart.bin", &p->chart);
    save_file(folder, "rules.bin", &p->rules);
    save_file(folder, "more.bin", &p->more);
    save_file(folder, "drawer.bin", &p->drawer);
    printf("  saved in %s: chart.bin, rules.bin, more.bin, and drawer.bin, which is reduced\n", folder);
}

int check_cases(uint64_t seed, int first, int end, const char *save)
{
    static pair_case p;
    tally t = {0, 0, 0, 0, 0, 0, 0, 0, 0, 0};
    char label[100];
    int different = 0, inner, reduced = 0, i;
    buddy_start(4 * MADE_AT_MOST, CACHE, MOST_STEPS);
    for (i = first; i < end && different < MOST_DIFFERENCES; i++) {
        make_case(&p, seed, i);
        snprintf(label, sizeof label, "seed %llu case %d (%s)", (unsigned long long)seed, i, p.name);
        if (check_all(&p, label, &inner, &reduced) && different++ == 0 && save != NULL) {
            save_case(save, &p);
        }
        count_case(&t, &p, inner, reduced);
    }
    buddy_end();
    return different + print_tally(&t, different);
}
