/* asks: answers a batch of inputs by the library for other languages, in the form in which the Rust, or a model that was written from the documents alone, answers it
 * (beside/run). It is for the calls that the Rust does not have, and for files that are too long for crates/vectors.
 *
 * Standard input holds records: a byte for the kind, the input's length in 4 bytes, little-endian, and the input. Standard output has the lines of each answer and then
 * the line `.`. Numbers are decimal.
 *
 * - `a`, an address of 8 bytes, little-endian, and a whole file: `null`, `found ROW` or `missing`, looked up through an index of 1, 2, 7, as many as rows, and 65,537
 *   buckets, a line each; or `refused N`, with the offset of the fault after 16 and 17.
 * - `I`, an index over any numbers: of 8 bytes each, little-endian, the row count, the bucket count, an address, the lengths of a row table, heads and links, and then
 *   the numbers of these three. The answer is what building says (`built`, or `refused N` with what it carries), `heads` and `links` with all numbers that they hold
 *   afterwards, and what the address leads to: with heads and links as they came in, as the building left them, and by the plain search.
 *
 * - `W`, a name: of 8 bytes each, little-endian, the size of a type and the bytes to a pointer, and then the name's bytes. The answer is what the name says (its kind, where
 *   name and rest stand, indirection, length and number of dimensions) or `refused N`, and then `width N`, `refused N`, or `none` where the name is refused.
 * - `w`, a declarator that somebody made, of 10 such numbers: kind, places of name and rest, indirection, length, number of dimensions, the size of a type and the
 *   bytes to a pointer. The answer is its width.
 * - `F`, a whole file, as crates/vectors answers it: `file` and what is said of it, and for each row `row` with its numbers and the 64-bit FNV-1a hash of its payload; or
 *   `refused N`, with the offset after 16 and 17.
 * - `O`, a scene to be written: 8 such numbers, the edition, the bytes to a pointer, the order, major, minor, the row count, and the lengths of a row table and of an output;
 *   then the numbers of the table, the bytes that the output holds, and the source. The answer is `written N`, or `refused N` with what it carries, and `output` with all
 *   bytes that the output holds afterwards, in hexadecimal.
 *
 * An input that is none of these is answered `bad-input`. Exit 1: a batch that ends inside a record, or too little memory. */
#include "libc.h"

#include "blend.h"

static char output[1 << 16];

/* Room for that many elements; never null, since no slice that is lent may be. */
static void *room_for(void *old, size_t count, size_t size)
{
    void *room = count < SIZE_MAX / size ? realloc(old, (count + 1) * size) : NULL;

    if (room == NULL) {
        fprintf(stderr, "asks: there is not enough memory\n");
        exit(1);
    }
    return room;
}

/* A table that grows with what is asked of it, and is never given back. */
struct table {
    uint64_t *numbers;
    size_t room;
};

static uint64_t *lent(struct table *t, size_t numbers)
{
    if (t->numbers == NULL || numbers > t->room) {
        t->numbers = room_for(t->numbers, numbers, sizeof *t->numbers);
        t->room = numbers;
    }
    return t->numbers;
}

static struct table rows, heads, links, first_heads, first_links;

static void put_refusal(uint64_t refusal, uint64_t one, uint64_t other)
{
    if (refusal == 14)
        printf("refused %lu %lu %lu\n", refusal, one, other);
    else
        printf("refused %lu\n", refusal);
}

static void put_fault(uint64_t refusal, uint64_t fault_at)
{
    if (refusal == 16 || refusal == 17)
        printf("refused %lu %lu\n", refusal, fault_at);
    else
        printf("refused %lu\n", refusal);
}

static void put_pointer(uint64_t kind, uint64_t row)
{
    if (kind == 1)
        printf("found %lu\n", row);
    else
        printf(kind == 0 ? "null\n" : "missing\n");
}

static void put_found(struct blend_found f)
{
    if (f.refusal != 0)
        put_refusal(f.refusal, f.buckets, f.rows);
    else
        put_pointer(f.kind, f.row);
}

/* ---- Addresses in files */

static void by_index(const uint64_t *table, size_t numbers, size_t count, size_t buckets, uint64_t address)
{
    uint64_t *first = lent(&heads, buckets), *next = lent(&links, count);
    struct blend_index built = blend_index(table, numbers, count, buckets, first, buckets, next, count);

    if (built.refusal != 0)
        put_refusal(built.refusal, built.buckets, built.rows);
    else
        put_found(blend_find(table, numbers, count, buckets, first, buckets, next, count, address));
}

static void address_in_file(const uint8_t *input, size_t length)
{
    struct blend_value address = blend_u64(input, length, 0);
    size_t numbers = length / BLEND_BLOCK_LEAST * BLEND_ROW;
    uint64_t *table = lent(&rows, numbers);
    struct blend_read r;

    if (address.refusal != 0) {
        printf("bad-input\n");
        return;
    }
    r = blend_read(input + 8, length - 8, table, numbers);
    if (r.refusal != 0) {
        put_fault(r.refusal, r.fault_at);
        return;
    }
    by_index(table, numbers, r.rows, 1, address.value);
    by_index(table, numbers, r.rows, 2, address.value);
    by_index(table, numbers, r.rows, 7, address.value);
    by_index(table, numbers, r.rows, r.rows, address.value);
    by_index(table, numbers, r.rows, 65537, address.value);
}

/* ---- Whole files */

static uint64_t hash(const uint8_t *bytes, uint64_t length)
{
    uint64_t h = 0xcbf29ce484222325;

    for (uint64_t i = 0; i < length; i++)
        h = (h ^ bytes[i]) * 0x100000001b3;
    return h;
}

static void whole_file(const uint8_t *input, size_t length)
{
    enum { CODE, ADDRESS, INDEX, COUNT, HEADER_AT, PAYLOAD_AT, PAYLOAD_LENGTH };
    size_t numbers = length / BLEND_BLOCK_LEAST * BLEND_ROW;
    uint64_t *table = lent(&rows, numbers);
    struct blend_read r = blend_read(input, length, table, numbers);

    if (r.refusal != 0) {
        put_fault(r.refusal, r.fault_at);
        return;
    }
    printf("file %s %lu %s %lu %lu %lu %lu %lu %lu %lu %lu\n", r.edition == 0 ? "legacy" : "new", 8 * r.pointer_bytes, r.order == 0 ? "little" : "big", r.major,
           r.minor, r.rows, r.end, r.names, r.types, r.structs, r.fields);
    for (uint64_t *row = table; row < table + r.rows * BLEND_ROW; row += BLEND_ROW)
        printf("row %08lx %lu %lu %lu %lu %lu %lu %016lx\n", row[CODE], row[ADDRESS], row[INDEX], row[COUNT], row[HEADER_AT], row[PAYLOAD_AT],
               row[PAYLOAD_LENGTH], hash(input + row[PAYLOAD_AT], row[PAYLOAD_LENGTH]));
}

/* ---- An index over any numbers */

/* The numbers that stand in the input from a place on, 8 bytes each. */
static uint64_t *numbers_at(struct table *t, const uint8_t *input, size_t at, size_t count)
{
    uint64_t *numbers = lent(t, count);

    for (size_t i = 0; i < count; i++)
        numbers[i] = blend_u64(input + at + 8 * i, 8, 0).value;
    return numbers;
}

static void put_numbers(const char *name, const uint64_t *numbers, size_t count)
{
    printf("%s", name);
    for (size_t i = 0; i < count; i++)
        printf(" %lu", numbers[i]);
    printf("\n");
}

static void index_of_numbers(const uint8_t *input, size_t length)
{
    enum { COUNT, BUCKETS, ADDRESS, ROW_NUMBERS, HEADS, LINKS, ASKED };
    uint64_t ask[ASKED], *table, *first, *next, *built_first, *built_next;
    size_t left = length / 8;
    struct blend_index built;
    struct blend_pointer plain;

    for (size_t i = 0; i < ASKED; i++)
        ask[i] = length < 8 * ASKED ? 0 : blend_u64(input + 8 * i, 8, 0).value;
    if (length % 8 != 0 || left < ASKED || ask[ROW_NUMBERS] > left || ask[HEADS] > left || ask[LINKS] > left
        || ASKED + ask[ROW_NUMBERS] + ask[HEADS] + ask[LINKS] != left) {
        printf("bad-input\n");
        return;
    }
    table = numbers_at(&rows, input, 8 * ASKED, ask[ROW_NUMBERS]);
    first = numbers_at(&first_heads, input, 8 * (ASKED + ask[ROW_NUMBERS]), ask[HEADS]);
    next = numbers_at(&first_links, input, 8 * (ASKED + ask[ROW_NUMBERS] + ask[HEADS]), ask[LINKS]);
    built_first = memcpy(lent(&heads, ask[HEADS]), first, ask[HEADS] * sizeof *first);
    built_next = memcpy(lent(&links, ask[LINKS]), next, ask[LINKS] * sizeof *next);
    built = blend_index(table, ask[ROW_NUMBERS], ask[COUNT], ask[BUCKETS], built_first, ask[HEADS], built_next, ask[LINKS]);
    if (built.refusal != 0)
        put_refusal(built.refusal, built.buckets, built.rows);
    else
        printf("built\n");
    put_numbers("heads", built_first, ask[HEADS]);
    put_numbers("links", built_next, ask[LINKS]);
    put_found(blend_find(table, ask[ROW_NUMBERS], ask[COUNT], ask[BUCKETS], first, ask[HEADS], next, ask[LINKS], ask[ADDRESS]));
    put_found(blend_find(table, ask[ROW_NUMBERS], ask[COUNT], ask[BUCKETS], built_first, ask[HEADS], built_next, ask[LINKS], ask[ADDRESS]));
    plain = blend_lookup(table, ask[ROW_NUMBERS], ask[COUNT], ask[ADDRESS]);
    if (plain.refusal != 0)
        put_refusal(plain.refusal, 0, 0);
    else
        put_pointer(plain.kind, plain.row);
}

/* ---- Names and widths */

static void put_width(struct blend_value width)
{
    if (width.refusal != 0)
        printf("refused %lu\n", width.refusal);
    else
        printf("width %lu\n", width.value);
}

static void width_of_name(const uint8_t *input, size_t length)
{
    static const char *const kinds[] = {"value", "array", "pointer", "pointer-array", "function"};
    uint64_t *asked = numbers_at(&heads, input, 0, length < 16 ? 0 : 2);
    struct blend_field f;

    if (length < 16) {
        printf("bad-input\n");
        return;
    }
    f = blend_field(input + 16, length - 16, lent(&links, length), length);
    if (f.refusal != 0) {
        printf("refused %lu\n", f.refusal);
        printf(blend_width(f, asked[0], asked[1]).refusal == 15 ? "none\n" : "a width of a refused name\n");
        return;
    }
    printf("%s %lu %lu %lu %lu %lu %lu %lu\n", kinds[f.kind], f.name_at, f.name_length, f.rest_at, f.rest_length, f.indirection, f.length, f.dimensions);
    put_width(blend_width(f, asked[0], asked[1]));
}

static void width_of_numbers(const uint8_t *input, size_t length)
{
    enum { KIND, NAME_AT, NAME_LENGTH, REST_AT, REST_LENGTH, INDIRECTION, LENGTH, DIMENSIONS, SIZE, POINTER_BYTES, NUMBERS };
    const uint64_t *n = numbers_at(&heads, input, 0, length == 8 * NUMBERS ? NUMBERS : 0);
    struct blend_field f;

    if (length != 8 * NUMBERS || n[KIND] > 4) {
        printf("bad-input\n");
        return;
    }
    f = (struct blend_field){.kind = n[KIND], .name_at = n[NAME_AT], .name_length = n[NAME_LENGTH], .rest_at = n[REST_AT], .rest_length = n[REST_LENGTH],
                             .indirection = n[INDIRECTION], .length = n[LENGTH], .dimensions = n[DIMENSIONS]};
    put_width(blend_width(f, n[SIZE], n[POINTER_BYTES]));
}

/* ---- Writing */

static void put_written(struct blend_written w)
{
    if (w.refusal == 0)
        printf("written %lu\n", w.written);
    else if (w.refusal == 18)
        printf("refused 18 %lu\n", w.needed);
    else if (w.refusal == 19)
        printf("refused 19 %lu\n", w.row);
    else
        put_fault(w.refusal, w.fault_at);
}

static void put_bytes(const char *name, const uint8_t *bytes, size_t length)
{
    static const char digits[] = "0123456789abcdef";

    printf("%s ", name);
    for (size_t i = 0; i < length; i++) {
        putchar(digits[bytes[i] >> 4]);
        putchar(digits[bytes[i] & 15]);
    }
    printf("\n");
}

/* The output is written where it stands in the input: before the source, which it does not overlap. */
static void written_of_numbers(uint8_t *input, size_t length)
{
    enum { EDITION, POINTER_BYTES, ORDER, MAJOR, MINOR, COUNT, ROW_NUMBERS, OUTPUT, ASKED };
    uint64_t ask[ASKED], *table;
    size_t left = length < 8 * ASKED ? 0 : length - 8 * ASKED;
    uint8_t *out, *source;

    for (size_t i = 0; i < ASKED; i++)
        ask[i] = length < 8 * ASKED ? 0 : blend_u64(input + 8 * i, 8, 0).value;
    if (length < 8 * ASKED || ask[EDITION] > 1 || (ask[POINTER_BYTES] != 4 && ask[POINTER_BYTES] != 8) || ask[ORDER] > 1 || ask[MAJOR] > 65535
        || ask[MINOR] > 65535 || ask[ROW_NUMBERS] > left / 8 || ask[OUTPUT] > left - 8 * ask[ROW_NUMBERS]) {
        printf("bad-input\n");
        return;
    }
    table = numbers_at(&rows, input, 8 * ASKED, ask[ROW_NUMBERS]);
    out = input + 8 * (ASKED + ask[ROW_NUMBERS]);
    source = out + ask[OUTPUT];
    put_written(blend_write(ask[EDITION], ask[POINTER_BYTES], ask[ORDER], ask[MAJOR], ask[MINOR], table, ask[ROW_NUMBERS], ask[COUNT], source,
                            (size_t)(input + length - source), out, ask[OUTPUT]));
    put_bytes("output", out, ask[OUTPUT]);
}

/* ---- The batch */

static void answer(uint8_t kind, uint8_t *input, size_t length)
{
    if (kind == 'a')
        address_in_file(input, length);
    else if (kind == 'I')
        index_of_numbers(input, length);
    else if (kind == 'W')
        width_of_name(input, length);
    else if (kind == 'w')
        width_of_numbers(input, length);
    else if (kind == 'F')
        whole_file(input, length);
    else if (kind == 'O')
        written_of_numbers(input, length);
    else
        printf("bad-kind\n");
    printf(".\n");
}

/* Reads so many bytes; false where they are not there. */
static bool taken(uint8_t *bytes, size_t length)
{
    static uint8_t pieces[1 << 16];
    static size_t from, to;

    while (length > 0) {
        size_t piece;

        if (from == to) {
            ssize_t got = read(STDIN_FILENO, pieces, sizeof pieces);

            if (got < 0 && errno == EINTR)
                continue;
            if (got <= 0)
                return false;
            from = 0;
            to = (size_t)got;
        }
        piece = to - from < length ? to - from : length;
        memcpy(bytes, pieces + from, piece);
        from += piece;
        bytes += piece;
        length -= piece;
    }
    return true;
}

int main(void)
{
    uint8_t head[5], *input = NULL;
    size_t room = 0;

    setvbuf(stdout, output, _IOFBF, sizeof output);
    while (taken(head, 1)) {
        size_t length;

        if (!taken(head + 1, 4))
            return 1;
        length = blend_u32(head + 1, 4, 0).value;
        if (input == NULL || length > room) {
            input = room_for(input, length, 1);
            room = length;
        }
        if (!taken(input, length))
            return 1;
        answer(head[0], input, length);
    }
    return fflush(stdout) == 0 && !ferror(stdout) ? 0 : 1;
}
