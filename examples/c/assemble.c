/* assemble RESULT STEP..: builds a source step by step, and writes it to the file RESULT.
 *
 *     cc -std=c11 -I include -o assemble examples/c/assemble.c target/staticlib/libaspda.a
 *
 * A step is a file that starts with a rule's record, which is added, or `-`, which drops the last rule. The exit status is
 * 0 if RESULT was written. A refusal is printed with its step, its number and the byte offset of its place, and leaves
 * RESULT as it was. */
#include "aspda.h"

#include <stdio.h>
#include <stdlib.h>
#include <string.h>

/* A rule's record has 7 bytes and up to 48 literals of 5. */
#define LONGEST_RECORD (7 + 48 * 5)

/* What an editor keeps while a source is built. */
struct assembly {
    uint8_t state[ASPDA_STATE];
    uint8_t buffer[ASPDA_ASSEMBLY_BOUND];
};

static void check_file(int is_good, const char *name)
{
    if (is_good) return;
    perror(name);
    exit(EXIT_FAILURE);
}

/* The number of rules that are held; a refusal ends the program. */
static unsigned accepted(uint64_t word, const char *step)
{
    if (!ASPDA_IS_REFUSAL(word)) return (unsigned)word;
    fprintf(stderr, "%s: refused with %u at byte %u\n", step, (unsigned)ASPDA_REFUSAL_NUMBER(word),
            (unsigned)ASPDA_REFUSAL_PLACE(word));
    exit(EXIT_FAILURE);
}

/* Bytes behind a record are not looked at: of a longer file no more is read than the longest record has. */
static uint64_t add_file(struct assembly *held, const char *name)
{
    uint8_t record[LONGEST_RECORD];
    FILE *file = fopen(name, "rb");
    check_file(file != NULL, name);
    size_t length = fread(record, 1, sizeof record, file);
    check_file(!ferror(file), name);
    fclose(file);
    return aspda_add(held->state, sizeof held->state, record, length, held->buffer, sizeof held->buffer);
}

static uint64_t take_step(struct assembly *held, const char *step)
{
    if (strcmp(step, "-") == 0) return aspda_drop(held->state, sizeof held->state);
    return add_file(held, step);
}

static void write_file(const char *name, const uint8_t *bytes, size_t length)
{
    FILE *file = fopen(name, "wb");
    check_file(file != NULL, name);
    check_file(fwrite(bytes, 1, length, file) == length, name);
    check_file(fclose(file) == 0, name);
}

int main(int count, char **arguments)
{
    if (count < 2) {
        fputs("usage: assemble RESULT STEP..\n", stderr);
        return EXIT_FAILURE;
    }
    /* All zero: nothing was begun. */
    static struct assembly held;
    accepted(aspda_begin(held.state, sizeof held.state, held.buffer, sizeof held.buffer), "begin");
    for (int i = 2; i < count; i++) accepted(take_step(&held, arguments[i]), arguments[i]);
    unsigned rules = accepted(aspda_close(held.state, sizeof held.state, held.buffer, sizeof held.buffer), "close");
    size_t length = (size_t)aspda_assembled(held.state, sizeof held.state);
    write_file(arguments[1], held.buffer, length);
    printf("rules: %u, bytes: %zu\n", rules, length);
    return EXIT_SUCCESS;
}
