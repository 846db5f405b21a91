#include "files.h"

#include <planner.h>

#include <errno.h>
#include <stdio.h>
#include <stdlib.h>
#include <string.h>

/* A block that was asked for. */
static void *got_block(void *block)
{
    if (block == NULL) {
        fprintf(stderr, "%s: no memory\n", program);
        exit(2);
    }
    return block;
}

void *allocate(size_t count, size_t size)
{
    /* One entry at least: a lent slice has a pointer, also where it is empty. */
    return got_block(calloc(count > 0 ? count : 1, size));
}

uint16_t read_number(const char *what, const char *text)
{
    size_t digits = strspn(text, "0123456789");
    unsigned long number = strtoul(text, NULL, 10);
    if (digits == 0 || text[digits] != '\0' || number > 65535) {
        fprintf(stderr, "%s: no %s number from 0 to 65535: %s\n", program, what, text);
        exit(2);
    }
    return (uint16_t)number;
}

file read_file(const char *path)
{
    size_t room = 65536;
    file f = {allocate(room, 1), 0};
    FILE *in = fopen(path, "rb");
    size_t got;
    if (in == NULL) {
        return f;
    }
    while ((got = fread(f.bytes + f.len, 1, room - f.len, in)) > 0) {
        f.len += got;
        if (f.len == room) {
            room *= 2;
            f.bytes = got_block(realloc(f.bytes, room));
        }
    }
    fclose(in);
    return f;
}

int write_file(const char *path, const uint8_t *bytes, size_t len)
{
    FILE *out = fopen(path, "wb");
    int whole = out != NULL && fwrite(bytes, 1, len, out) == len;
    if (out != NULL && fclose(out) != 0) {
        whole = 0;
    }
    if (!whole) {
        fprintf(stderr, "%s: %s: %s\n", program, path, strerror(errno));
    }
    return whole;
}

void print_refusal(size_t number, size_t mark, size_t place)
{
    printf("refused %zu file %zu place %zu\n", number, mark, place);
}

/* First asks for their number. */
void show_field(file chart, file rules, size_t mark, size_t place)
{
    uint8_t nothing;
    size_t len = planner_refused_field(chart.bytes, chart.len, rules.bytes, rules.len, (uint32_t)mark, place,
                                       &nothing, 0);
    uint8_t *field = allocate(len, 1);
    size_t i;
    planner_refused_field(chart.bytes, chart.len, rules.bytes, rules.len, (uint32_t)mark, place, field, len);
    fputs("field", stderr);
    for (i = 0; i < len && i < 32; i++) {
        fprintf(stderr, " %02x", (unsigned)field[i]);
    }
    fputs(i < len ? " ..\n" : "\n", stderr);
    free(field);
}

void show_refusal(file chart, file rules, size_t number, size_t mark, size_t place)
{
    print_refusal(number, mark, place);
    if (mark != PLANNER_FILE_NONE) {
        show_field(chart, rules, mark, place);
    }
}

int finish(int status)
{
    if (fflush(stdout) != 0 || ferror(stdout)) {
        fprintf(stderr, "%s: the output is not complete: %s\n", program, strerror(errno));
        return 2;
    }
    return status;
}
