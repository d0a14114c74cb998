/* Whole files from standard input and to standard output, for small programs: each names itself in PROGRAM before it includes this. Whatever goes wrong is told, and ends the
 * program with 1. */
#ifndef WHOLE_H
#define WHOLE_H

#include "libc.h"

#include "blend.h"

__attribute__((format(printf, 1, 2))) _Noreturn static void fail(const char *format, ...)
{
    va_list words;

    fprintf(stderr, PROGRAM ": ");
    va_start(words, format);
    vfprintf(stderr, format, words);
    va_end(words);
    fprintf(stderr, "\n");
    exit(1);
}

/* Room for that many elements, with what the old room held; never null, since no slice that is lent may be. */
static void *room_for(void *old, uint64_t count, size_t size)
{
    void *room = count < SIZE_MAX / size ? realloc(old, (count + 1) * size) : NULL;

    if (room == NULL)
        fail("there is not enough memory");
    return room;
}

/* A file with its rows. */
struct whole {
    uint8_t *bytes;
    size_t length;
    struct blend_read read;
    uint64_t *rows;
};

static struct whole whole_input(void)
{
    struct whole w = {.bytes = room_for(NULL, 1 << 16, 1)};
    size_t room = 1 << 16;
    ssize_t got;

    while ((got = read(STDIN_FILENO, w.bytes + w.length, room - w.length)) != 0) {
        if (got < 0 && errno != EINTR)
            fail("standard input: cannot be read: %s", strerror(errno));
        w.length += got < 0 ? 0 : (size_t)got;
        if (w.length == room) {
            room *= 2;
            w.bytes = room_for(w.bytes, room, 1);
        }
    }
    w.rows = room_for(NULL, w.length / BLEND_BLOCK_LEAST, BLEND_ROW * sizeof *w.rows);
    w.read = blend_read(w.bytes, w.length, w.rows, w.length / BLEND_BLOCK_LEAST * BLEND_ROW);
    if (w.read.refusal == 16 || w.read.refusal == 17)
        fail("the file is refused: %lu at %lu", w.read.refusal, w.read.fault_at);
    if (w.read.refusal != 0)
        fail("the file is refused: %lu", w.read.refusal);
    return w;
}

/* The rows as a file, with the header of `read`, on standard output. The library is asked twice: first how many bytes it needs. */
static void whole_output(const struct blend_read *read, const uint64_t *rows, const uint8_t *source, size_t length)
{
    uint8_t *out = room_for(NULL, 0, 1);
    struct blend_written w = {0};

    for (size_t room = 0, asked = 0; asked < 2; asked++) {
        out = room_for(out, room, 1);
        w = blend_write(read->edition, read->pointer_bytes, read->order, read->major, read->minor, rows, read->rows * BLEND_ROW, read->rows, source, length, out, room);
        room = w.needed;
    }
    if (w.refusal == 16 || w.refusal == 17)
        fail("the scene is refused: %lu at %lu of a payload", w.refusal, w.fault_at);
    if (w.refusal == 19)
        fail("the scene is refused: 19 of row %lu", w.row);
    if (w.refusal != 0)
        fail("the scene is refused: %lu", w.refusal);
    for (size_t done = 0; done < w.written;) {
        ssize_t put = write(STDOUT_FILENO, out + done, w.written - done);

        if (put < 0 && errno != EINTR)
            fail("standard output: cannot be written: %s", strerror(errno));
        done += put < 0 ? 0 : (size_t)put;
    }
    free(out);
}

#endif
