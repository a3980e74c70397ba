/*
 * Lists the rows of a labelled file with labels of version 1, then builds its index, jumps to a row and shows COUNT of its bytes,
 * from byte FIRST on, and tells where the row's label stands:
 *
 *     cc -std=c11 -Wall -Wextra -Wpedantic -Iinclude examples/c/list_and_jump.c target/staticlib/libcapi.a -o list_and_jump
 *     ./list_and_jump crates/samples/data/volume_header.sfdu 1 10 7
 *
 * The exit status is 0; 1 where the library refused; 2 where the arguments or the file could not be read.
 */
#include <ctype.h>
#include <errno.h>
#include <inttypes.h>
#include <stdio.h>
#include <stdlib.h>

#include "crestulbino.h"

enum { DONE = 0, REFUSED = 1, FAILED = 2 };

typedef struct lent_file {
    uint8_t *bytes;
    size_t length;
} lent_file;

static int refused(crest_result result)
{
    fprintf(stderr, "refusal %" PRIu64 " %s at byte %" PRIu64 ": %s\n", result.refusal, crest_refusal_name(result.refusal),
            result.place, crest_refusal_text(result.refusal));
    return REFUSED;
}

static int failed(const char *what)
{
    perror(what);
    return FAILED;
}

/* Reads all of a stream. The caller frees file->bytes, whatever is returned. */
static int read_all(FILE *stream, lent_file *file)
{
    size_t room = 0;
    for (;;) {
        if (file->length == room) {
            room = room == 0 ? 65536 : 2 * room;
            uint8_t *larger = realloc(file->bytes, room);
            if (larger == NULL) {
                return failed("realloc");
            }
            file->bytes = larger;
        }
        size_t count = fread(file->bytes + file->length, 1, room - file->length, stream);
        if (count == 0) {
            return ferror(stream) ? failed("fread") : DONE;
        }
        file->length += count;
    }
}

/* Prints a line for each row: its number, the place of its first byte and its length. */
static int list_rows(const lent_file *file)
{
    uint64_t from = 0;
    for (uint64_t row = 0;; row++) {
        crest_row shown;
        crest_result result = crest_row_from_labelled(file->bytes, file->length, false, from, &shown);
        if (result.refusal == CREST_NOROW) {
            return DONE;
        }
        if (result.refusal != 0) {
            return refused(result);
        }
        printf("row %" PRIu64 ": %" PRIu64 " bytes at %" PRIu64 "\n", row, shown.bytes, shown.place);
        from = shown.place + shown.bytes;
    }
}

static void print_bytes(const uint8_t *bytes, uint64_t count)
{
    for (uint64_t at = 0; at < count; at++) {
        printf(" %02x", bytes[at]);
    }
    printf("\n");
}

/* What to show of which row. */
typedef struct wanted {
    uint64_t row;
    uint64_t first;
    uint64_t count;
} wanted;

/* Jumps to a row by the index, and prints where its window begins and the bytes that the window shows. */
static int jump(const lent_file *file, const uint32_t *list, size_t entries, wanted part)
{
    crest_row shown;
    crest_result result = crest_jump_labelled(file->bytes, file->length, false, list, entries, part.row, part.first,
                                              part.count, &shown);
    if (result.refusal != 0) {
        return refused(result);
    }
    printf("jump to row %" PRIu64 ": %" PRIu64 " bytes at %" PRIu64 ":", part.row, shown.bytes, shown.place);
    print_bytes(file->bytes + shown.place, shown.bytes);
    return DONE;
}

/* Reads the same row from the file's first byte, and prints its address, which the jump knows only in part. */
static int address(const lent_file *file, wanted part)
{
    crest_row shown;
    crest_result result =
        crest_read_row_labelled(file->bytes, file->length, false, part.row, part.first, part.count, &shown);
    if (result.refusal != 0) {
        return refused(result);
    }
    printf("its label is at %" PRIu64 ", at depth %" PRIu64 " in the object at %" PRIu64 "\n", shown.label, shown.depth,
           shown.outermost);
    return DONE;
}

static int index_and_jump(const lent_file *file, uint64_t rows, wanted part)
{
    size_t room = (size_t)((rows + CREST_ROWS_PER_ENTRY - 1) / CREST_ROWS_PER_ENTRY);
    uint32_t *list = calloc(room + 1, sizeof *list);
    if (list == NULL) {
        return failed("calloc");
    }
    uint64_t entries, indexed;
    crest_result result = crest_build_index(file->bytes, file->length, false, list, room, &entries, &indexed);
    int status = result.refusal != 0 ? refused(result) : jump(file, list, (size_t)entries, part);
    free(list);
    return status;
}

static int show(const lent_file *file, wanted part)
{
    uint64_t rows;
    crest_result result = crest_check_labelled(file->bytes, file->length, false, &rows);
    if (result.refusal != 0) {
        return refused(result);
    }
    int status = list_rows(file);
    if (status == DONE) {
        status = index_and_jump(file, rows, part);
    }
    return status != DONE ? status : address(file, part);
}

static int show_file(const char *name, wanted part)
{
    FILE *stream = fopen(name, "rb");
    if (stream == NULL) {
        return failed(name);
    }
    lent_file file = {NULL, 0};
    int status = read_all(stream, &file);
    fclose(stream);
    if (status == DONE) {
        status = show(&file, part);
    }
    free(file.bytes);
    return status;
}

/* Reads a decimal number. */
static int read_number(const char *word, uint64_t *number)
{
    char *end;
    errno = 0;
    *number = strtoull(word, &end, 10);
    return isdigit((unsigned char)word[0]) && *end == '\0' && errno == 0;
}

int main(int argc, char **argv)
{
    wanted part;
    if (argc != 5 || !read_number(argv[2], &part.row) || !read_number(argv[3], &part.first) ||
        !read_number(argv[4], &part.count)) {
        fprintf(stderr, "usage: list_and_jump FILE ROW FIRST COUNT\n");
        return FAILED;
    }
    int status = show_file(argv[1], part);
    return fflush(stdout) == 0 ? status : failed("stdout");
}
