/* What the examples share: whole files, memory, refusals. */
#ifndef FILES_H
#define FILES_H

#include <stddef.h>
#include <stdint.h>

/* The program's name, for its messages. */
extern const char *const program;

/* A whole file. */
typedef struct file {
    uint8_t *bytes; /* never null */
    size_t len;
} file;

/* Zeroed memory, never null: where there is none, the program ends with status 2. */
void *allocate(size_t count, size_t size);

/* A number in decimal digits, of any size that two bytes have room for; a text that is none ends the program with status 2. */
uint16_t read_number(const char *what, const char *text);

/* A file that is missing counts as empty. */
file read_file(const char *path);

/* Whether all of the bytes stand in the file now; where not, the reason goes to standard error. */
int write_file(const char *path, const uint8_t *bytes, size_t len);

/* The line of a refusal. */
void print_refusal(size_t number, size_t mark, size_t place);

/* The bytes of the field at a place of a file (PLANNER_FILE_CHART or PLANNER_FILE_RULES), to standard error. */
void show_field(file chart, file rules, size_t mark, size_t place);

/* The line of a refusal and, where a file is at fault, the bytes of its field. */
void show_refusal(file chart, file rules, size_t number, size_t mark, size_t place);

/* The exit status: `status`, or 2 where standard output is not complete. */
int finish(int status);

#endif
