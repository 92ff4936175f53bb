/* translate SOURCE RESULT: translates the program in the file SOURCE into the file RESULT.
 *
 *     cc -std=c11 -I include -o translate examples/c/translate.c target/staticlib/libaspda.a
 *
 * The exit status is 0 if RESULT was written. A refusal is printed with its number and the byte offset of its place,
 * and leaves RESULT as it was. */
#include "aspda.h"

#include <stdio.h>
#include <stdlib.h>

struct bytes {
    uint8_t *start;
    size_t length;
};

/* Room for that many bytes; the library takes no null pointer, so there is always at least one. */
static struct bytes make_room(size_t length)
{
    struct bytes room = {malloc(length + 1), length};
    if (room.start == NULL) {
        perror("translate");
        exit(EXIT_FAILURE);
    }
    return room;
}

static void check_file(int is_good, const char *name)
{
    if (is_good) return;
    perror(name);
    exit(EXIT_FAILURE);
}

static struct bytes read_file(const char *name)
{
    FILE *file = fopen(name, "rb");
    check_file(file != NULL && fseek(file, 0, SEEK_END) == 0, name);
    long length = ftell(file);
    check_file(length >= 0 && fseek(file, 0, SEEK_SET) == 0, name);
    struct bytes content = make_room((size_t)length);
    check_file(fread(content.start, 1, content.length, file) == content.length, name);
    fclose(file);
    return content;
}

static void write_file(const char *name, struct bytes content)
{
    FILE *file = fopen(name, "wb");
    check_file(file != NULL, name);
    check_file(fwrite(content.start, 1, content.length, file) == content.length, name);
    check_file(fclose(file) == 0, name);
}

/* The number that a word stands for; a refusal ends the program. */
static size_t accepted(uint64_t word, const char *name)
{
    if (!ASPDA_IS_REFUSAL(word)) return (size_t)word;
    fprintf(stderr, "%s: refused with %u at byte %u\n", name, (unsigned)ASPDA_REFUSAL_NUMBER(word),
            (unsigned)ASPDA_REFUSAL_PLACE(word));
    exit(EXIT_FAILURE);
}

int main(int count, char **arguments)
{
    if (count != 3) {
        fputs("usage: translate SOURCE RESULT\n", stderr);
        return EXIT_FAILURE;
    }
    struct bytes source = read_file(arguments[1]);
    /* Read first: a file of any length is refused before room is made for its translation. */
    accepted(aspda_read_source(source.start, source.length), arguments[1]);
    struct bytes result = make_room(ASPDA_TRANSLATION_BOUND(source.length));
    uint64_t word = aspda_translate(source.start, source.length, result.start, result.length);
    result.length = accepted(word, arguments[1]);
    write_file(arguments[2], result);
    printf("%zu bytes translated into %zu\n", source.length, result.length);
    free(result.start);
    free(source.start);
    return EXIT_SUCCESS;
}
