/* Reads a file by the library, and writes it again. Its rows and its catalogue go into tables that are lent; nothing is freed.
 *
 * usage: ours load|one|two|none|plain|build|find|room|write|copy FILE
 *   load   only loads the file. The difference of another mode to this one in instructions is what reading costs
 *   one    reads the rows in one call, with a table that no file of this length can need more of
 *   two    reads the rows in two calls: the first lends no table and is told how many rows there are
 *   none   as one, and looks no address up
 *   plain  as none, but looks a thousand addresses of a generated scene up by going over the rows
 *   build  as none, but builds an index with as many buckets as rows
 *   find   as build, and then looks the thousand addresses up by the index
 *   room   as none, and takes the memory of an output as long as the file
 *   write  as room, and writes the file there from its rows
 *   copy   as room, and copies the first payload there by the C library
 * It prints the numbers of rows, names, types, structs and fields, from none on the sum of the rows that were found, and from room on how many bytes were written or
 * copied, in seven digits, so that printing them costs the same. */
#include "blend.h"

int open(const char *path, int flags, ...);
long read(int fd, void *buffer, size_t length);
void *malloc(size_t length);
void *realloc(void *old, size_t length);
int printf(const char *format, ...);
int strcmp(const char *a, const char *b);
void *memcpy(void *to, const void *from, size_t length);

static uint8_t *loaded(const char *path, size_t *length)
{
    size_t room = 1 << 16;
    uint8_t *bytes = malloc(room);
    int fd = open(path, 0);
    *length = 0;
    for (;;) {
        long got = read(fd, bytes + *length, room - *length);
        if (got <= 0)
            return bytes;
        *length += (size_t)got;
        if (*length == room)
            bytes = realloc(bytes, room *= 2);
    }
}

static uint64_t *lent(uint64_t numbers)
{
    return malloc((numbers + 1) * sizeof(uint64_t));
}

enum lookups { NOT_ASKED, NONE, PLAIN, BUILD, FIND, ROOM, WRITE, COPY };

/* A thousand blocks of a generated scene, from its first on, each as far from the next: their addresses. */
static uint64_t asked(uint64_t rows, uint64_t i)
{
    return 16 * (i * ((rows - 1) / 1000) + 1);
}

static uint64_t looked_up(const uint64_t *table, size_t numbers, uint64_t rows, enum lookups how)
{
    uint64_t *heads, *links, sum = 0;
    if (how == PLAIN)
        for (uint64_t i = 0; i < 1000; i++)
            sum += blend_lookup(table, numbers, rows, asked(rows, i)).row;
    if (how != BUILD && how != FIND)
        return sum;
    heads = lent(rows), links = lent(rows);
    if (blend_index(table, numbers, rows, rows, heads, rows, links, rows).refusal != 0)
        return 0;
    if (how == FIND)
        for (uint64_t i = 0; i < 1000; i++)
            sum += blend_find(table, numbers, rows, rows, heads, rows, links, rows, asked(rows, i)).row;
    return sum;
}

/* How many bytes were written, or copied. */
static uint64_t written(const uint8_t *file, size_t length, const uint64_t *table, const struct blend_read *r, enum lookups how)
{
    uint8_t *out = malloc(length);
    if (how == WRITE)
        return blend_write(r->edition, r->pointer_bytes, r->order, r->major, r->minor, table, r->rows * BLEND_ROW, r->rows, file, length, out, length).written;
    if (how == ROOM)
        return 0;
    memcpy(out, file + table[5], table[6]);
    return table[6];
}

static int whole(const uint8_t *file, size_t length, int calls, enum lookups how)
{
    uint64_t none[1], numbers = length / BLEND_BLOCK_LEAST * BLEND_ROW;
    uint64_t *rows, *names, *types, *structs, *fields;
    struct blend_read answer;
    struct blend_view dna;
    struct blend_catalogue catalogue;
    if (calls == 2) {
        answer = blend_read(file, length, none, 0);
        if (answer.refusal != 7)
            return 1;
        numbers = answer.needed * BLEND_ROW;
    }
    rows = lent(numbers);
    answer = blend_read(file, length, rows, numbers);
    if (answer.refusal != 0)
        return 1;
    dna = blend_view(file, length, rows, numbers, answer.rows - 1);
    if (dna.refusal != 0)
        return 1;
    names = lent(answer.names * BLEND_NAME), types = lent(answer.types * BLEND_TYPE);
    structs = lent(answer.structs * BLEND_STRUCT), fields = lent(answer.fields * BLEND_FIELD);
    catalogue = blend_catalogue(file + dna.at, dna.length, answer.order, names, answer.names * BLEND_NAME, types, answer.types * BLEND_TYPE, structs,
                                answer.structs * BLEND_STRUCT, fields, answer.fields * BLEND_FIELD);
    if (catalogue.refusal != 0)
        return 1;
    printf("%lu %lu %lu %lu %lu", (unsigned long)answer.rows, (unsigned long)catalogue.names, (unsigned long)catalogue.types,
           (unsigned long)catalogue.structs, (unsigned long)catalogue.fields);
    if (how != NOT_ASKED)
        printf(" %lu", (unsigned long)looked_up(rows, numbers, answer.rows, how));
    if (how >= ROOM)
        printf(" %07lu", (unsigned long)written(file, length, rows, &answer, how));
    printf("\n");
    return 0;
}

int main(int count, char **words)
{
    size_t length;
    uint8_t *file;
    if (count != 3)
        return 2;
    file = loaded(words[2], &length);
    if (strcmp(words[1], "one") == 0)
        return whole(file, length, 1, NOT_ASKED);
    if (strcmp(words[1], "two") == 0)
        return whole(file, length, 2, NOT_ASKED);
    if (strcmp(words[1], "none") == 0)
        return whole(file, length, 1, NONE);
    if (strcmp(words[1], "plain") == 0)
        return whole(file, length, 1, PLAIN);
    if (strcmp(words[1], "build") == 0)
        return whole(file, length, 1, BUILD);
    if (strcmp(words[1], "find") == 0)
        return whole(file, length, 1, FIND);
    if (strcmp(words[1], "room") == 0)
        return whole(file, length, 1, ROOM);
    if (strcmp(words[1], "write") == 0)
        return whole(file, length, 1, WRITE);
    if (strcmp(words[1], "copy") == 0)
        return whole(file, length, 1, COPY);
    /* So that the printing is in both sides of a difference. */
    printf("%lu %lu %lu %lu %lu", (unsigned long)length, 0ul, 0ul, 0ul, 0ul);
    printf("\n");
    return 0;
}
