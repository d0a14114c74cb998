/* caller: holds the library to what blend.h promises its callers, at the edges. Each slice that is lent ends at a page that can be neither read nor written,
 * so a byte past it ends the program; an empty one is a pointer to that page, so that its use would end the program too. Tables and outputs hold a filling that a refused call
 * must leave, and that a call that answers must leave past what it fills.
 *
 * It prints how many checks were made and ends with 0, or tells the line of the first that fails and ends with 1. */
#include "libc.h"

#include "blend.h"

enum { PAGE = 1 << 16, NUMBERS = 64 }; /* no machine has larger pages */

#define MOST UINT64_MAX

static const uint64_t filling = 0xa5a5a5a5a5a5a5a5;

static void hold(uint64_t *checks, bool holds, int line)
{
    if (!holds) {
        printf("the check in line %d of caller.c does not hold\n", line);
        exit(1);
    }
    ++*checks;
}

#define HOLDS(fact) hold(checks, (fact), __LINE__)

/* ---- Slices that end at a guarded page */

static uint8_t *guarded(void)
{
    uint8_t *pages = mmap(NULL, 2 * PAGE, PROT_READ | PROT_WRITE, MAP_PRIVATE | MAP_ANONYMOUS, -1, 0);

    if (pages == MAP_FAILED || mprotect(pages + PAGE, PAGE, PROT_NONE) != 0)
        exit(1);
    return pages + PAGE;
}

static const uint8_t *bytes_at(uint8_t *guard, const void *bytes, size_t length)
{
    return length == 0 ? guard : memcpy(guard - length, bytes, length);
}

static uint64_t *table_at(uint8_t *guard, size_t numbers)
{
    uint64_t *table = (uint64_t *)guard - numbers;

    for (size_t i = 0; i < numbers; i++)
        table[i] = filling;
    return table;
}

static bool left(const uint64_t *table, size_t from, size_t numbers)
{
    for (size_t i = from; i < numbers; i++)
        if (table[i] != filling)
            return false;
    return true;
}

/* The places of an answer's first numbers, as bits: of every answer the refusal, and then what 16 and 17 carry, of those that have it. */
enum { REFUSAL = 1, FAULT_AT = 2 };

/* Whether every number of an answer is 0 but those whose places the bits of `carried` name. */
static bool zeros(const void *answer, size_t size, unsigned carried)
{
    const uint64_t *numbers = answer;

    for (size_t i = 0; i < size / sizeof *numbers; i++)
        if (numbers[i] != 0 && (carried >> i & 1) == 0)
            return false;
    return true;
}

/* ---- Whole files: document 01's example */

#define CATALOGUE \
    "SDNANAME\1\0\0\0x\0\0\0TYPE\1\0\0\0int\0TLEN\4\0\0\0STRC\1\0\0\0" \
    "\0\0\1\0\0\0\0\0"
static const char catalogue[] = CATALOGUE;
static const char example[] =
    "BLENDER-v280OB\0\0\4\0\0\0\20\0\0\0\0\0\0\0\3\0\0\0\1\0\0\0hull"
    "DNA1\64\0\0\0\40\0\0\0\0\0\0\0\0\0\0\0\1\0\0\0" CATALOGUE "ENDB";
enum { EXAMPLE = sizeof example - 1, PAYLOAD = sizeof catalogue - 1, ROWS = 2 * BLEND_ROW };

/* Where each read of the example begins, one after another: in the header after "BLENDER", in two block headers each with its payload, and the end mark. */
static const uint64_t example_reads[] = {7, 8, 9, 12, 16, 20, 28, 32, 36, 40, 44, 48, 56, 60, 64, 116, MOST};

/* Likewise of its catalogue. */
static const uint64_t catalogue_reads[] = {0, 4, 8, 12, 14, 16, 20, 24, 28, 32, 34, 36, 40, 44, 46, 48, 50, MOST};

/* Where what is cut to that length fails to read: at the last read that begins in it. */
static uint64_t cut_at(const uint64_t *reads, uint64_t length)
{
    while (reads[1] <= length)
        reads++;
    return *reads;
}

/* Whether an answer is refused by 16 or 17 at that place, and no number in it is but 0 that it does not carry. */
#define REFUSED_AT(answer, number, place) ((answer).refusal == (number) && (answer).fault_at == (place) && zeros(&(answer), sizeof(answer), REFUSAL | FAULT_AT))

static void headers(uint64_t *checks, uint8_t *guard)
{
    for (size_t length = 0; length <= EXAMPLE; length++) {
        struct blend_header h = blend_header(bytes_at(guard, example, length), length);

        if (length < 7)
            HOLDS(h.refusal == 1 && zeros(&h, sizeof h, REFUSAL));
        else if (length < 12)
            HOLDS(REFUSED_AT(h, 16, cut_at(example_reads, length)));
        else
            HOLDS(zeros(&h, sizeof h, 0x3f << 2) && h.pointer_bytes == 8 && h.major == 2 && h.minor == 80 && h.length == 12);
        HOLDS(h.edition == 0 && h.order == 0);
    }
}

/* A New header cut anywhere, and with each of its two marks wrong. */
static void new_headers(uint64_t *checks, uint8_t *guard)
{
    static const char new_header[] = "BLENDER17-01v0501";
    static const uint64_t reads[] = {7, 9, 10, 12, 13, MOST};
    struct blend_header h;

    for (size_t length = 7; length < 17; length++) {
        h = blend_header(bytes_at(guard, new_header, length), length);
        HOLDS(REFUSED_AT(h, 16, cut_at(reads, length)));
    }
    for (size_t mark = 9; mark <= 12; mark += 3)
        for (unsigned byte = 0; byte < 256; byte++) {
            bytes_at(guard, new_header, 17);
            guard[mark - 17] = (uint8_t)byte;
            h = blend_header(guard - 17, 17);
            if (mark == 9 ? byte == '_' || byte == '-' : byte == 'v' || byte == 'V')
                HOLDS(h.refusal == 0 && h.fault_at == 0 && h.edition == 1 && h.major == 5 && h.minor == 1 && h.length == 17);
            else
                HOLDS(REFUSED_AT(h, 17, mark));
        }
}

static void cut_files(uint64_t *checks, uint8_t *guard, uint8_t *lent)
{
    for (size_t length = 0; length < EXAMPLE; length++) {
        uint64_t *table = table_at(lent, ROWS);
        struct blend_read r = blend_read(bytes_at(guard, example, length), length, table, ROWS);

        if (length < 7)
            HOLDS(r.refusal == 1 && zeros(&r, sizeof r, REFUSAL));
        else
            HOLDS(REFUSED_AT(r, 16, cut_at(example_reads, length)));
        HOLDS(left(table, 0, ROWS));
    }
}

static void tables_for_files(uint64_t *checks, uint8_t *guard, uint8_t *lent)
{
    static const uint64_t rows[ROWS] = {0x4f420000, 16, 3, 1, 12, 36, 4, 0x444e4131, 32, 0, 1, 40, 64, 52};

    for (size_t numbers = 0; numbers <= ROWS + BLEND_ROW; numbers++) {
        uint64_t *table = table_at(lent, numbers);
        struct blend_read r = blend_read(bytes_at(guard, example, EXAMPLE), EXAMPLE, table, numbers);

        if (numbers < ROWS) {
            HOLDS(r.refusal == 7 && r.needed == 2 && zeros(&r, sizeof r, REFUSAL | 4) && left(table, 0, numbers));
        } else {
            HOLDS(r.refusal == 0 && r.fault_at == 0 && r.needed == 0 && r.edition == 0 && r.pointer_bytes == 8 && r.order == 0 && r.major == 2 && r.minor == 80);
            HOLDS(r.rows == 2 && r.end == EXAMPLE && r.names == 1 && r.types == 1 && r.structs == 1 && r.fields == 1);
            HOLDS(memcmp(table, rows, sizeof rows) == 0 && left(table, ROWS, numbers));
        }
    }
}

/* Every byte of the example made every other one. */
static void damaged_files(uint64_t *checks, uint8_t *guard, uint8_t *lent)
{
    for (size_t at = 0; at < EXAMPLE; at++) {
        for (unsigned byte = 0; byte < 256; byte++) {
            uint64_t *table = table_at(lent, NUMBERS);
            struct blend_read r;

            bytes_at(guard, example, EXAMPLE);
            guard[at - EXAMPLE] = (uint8_t)byte;
            r = blend_read(guard - EXAMPLE, EXAMPLE, table, NUMBERS);
            if (r.refusal == 0) {
                HOLDS(zeros(&r, sizeof r, ~(unsigned)(FAULT_AT | 4)));
                HOLDS(r.rows >= 1 && r.rows <= 2 && r.end <= EXAMPLE && left(table, r.rows * BLEND_ROW, NUMBERS));
                continue;
            }
            HOLDS(left(table, 0, NUMBERS));
            if (r.refusal == 16 || r.refusal == 17)
                HOLDS(REFUSED_AT(r, r.refusal, r.fault_at) && r.fault_at >= 7 && r.fault_at <= EXAMPLE);
            else
                HOLDS((r.refusal == 1 || (r.refusal >= 3 && r.refusal <= 6)) && zeros(&r, sizeof r, REFUSAL));
        }
    }
}

/* The order mark and those of the catalogue, with each byte of them made every other one. */
static void wrong_marks(uint64_t *checks, uint8_t *guard, uint8_t *lent)
{
    static const struct {
        size_t at, length;
    } marks[] = {{8, 1}, {64, 4}, {68, 4}, {80, 4}, {92, 4}, {100, 4}};

    for (size_t i = 0; i < sizeof marks / sizeof *marks; i++)
        for (size_t at = marks[i].at; at < marks[i].at + marks[i].length; at++)
            for (unsigned byte = 0; byte < 256; byte++) {
                uint64_t *table = table_at(lent, ROWS);
                struct blend_read r;

                if (byte == (uint8_t)example[at] || (at == 8 && byte == 'V'))
                    continue;
                bytes_at(guard, example, EXAMPLE);
                guard[at - EXAMPLE] = (uint8_t)byte;
                r = blend_read(guard - EXAMPLE, EXAMPLE, table, ROWS);
                HOLDS(REFUSED_AT(r, 17, marks[i].at) && left(table, 0, ROWS));
            }
}

/* ---- A walk */

/* Where a step's answer has what the row holds, and the bits of its numbers: the row; kind and end at the end mark; the place that it hands back. */
enum { ROW_AT = 3, ROW = 0x7f << ROW_AT, END = 1 << 2 | 1 << 10, NEXT = 3 << 11 };

static bool same_step(struct blend_step one, struct blend_step other)
{
    return memcmp(&one, &other, sizeof one) == 0;
}

/* A block from that place on, and the place after its payload. */
static bool block_step(const struct blend_step *s, uint64_t at, uint64_t length)
{
    return zeros(s, sizeof *s, ROW | NEXT) && s->next_at == s->payload + s->length && s->next_at > at && s->next_at <= length
        && s->next_dna == (s->code == 0x444e4131);
}

/* The end, or a refusal, and the place that went in. */
static bool ended_step(const struct blend_step *s, uint64_t end, uint64_t at)
{
    return s->kind == 1 && s->end == end && s->next_at == at && s->next_dna == 1 && zeros(s, sizeof *s, END | NEXT);
}

static bool refused_step(const struct blend_step *s, uint64_t refusal, uint64_t at, uint64_t dna)
{
    bool placed = refusal == 16 || refusal == 17;

    return s->refusal == refusal && s->next_at == at && s->next_dna == dna && zeros(s, sizeof *s, REFUSAL | (placed ? FAULT_AT : 0) | NEXT);
}

static bool holds_row(const struct blend_step *s, const uint64_t *row)
{
    return memcmp((const uint64_t *)s + ROW_AT, row, BLEND_ROW * sizeof *row) == 0;
}

/* What a walk over a file comes to, past these rows, where there is a table of them. Each step is asked twice. */
static struct blend_step walk(uint64_t *checks, const uint8_t *file, size_t length, const uint64_t *table)
{
    struct blend_step s = {.next_at = 0};

    for (;;) {
        uint64_t at = s.next_at, dna = s.next_dna;

        s = blend_step(file, length, at, dna);
        HOLDS(same_step(s, blend_step(file, length, at, dna)));
        if (s.refusal != 0 || s.kind != 0) {
            HOLDS(s.next_at == at && s.next_dna == dna);
            return s;
        }
        HOLDS(block_step(&s, at, length));
        if (table != NULL) {
            HOLDS(holds_row(&s, table));
            table += BLEND_ROW;
        }
    }
}

/* The walk over a file gives the rows that reading it gives, and comes to the same end, or the same refusal. */
static void walk_as_read(uint64_t *checks, const uint8_t *file, size_t length, uint8_t *lent)
{
    uint64_t *table = table_at(lent, NUMBERS);
    struct blend_read r = blend_read(file, length, table, NUMBERS);
    struct blend_step s = walk(checks, file, length, r.refusal == 0 ? table : NULL);

    HOLDS(s.refusal == r.refusal && s.fault_at == r.fault_at);
    if (r.refusal == 0)
        HOLDS(ended_step(&s, r.end, table[BLEND_ROW * r.rows - 2] + table[BLEND_ROW * r.rows - 1]));
    else
        HOLDS(refused_step(&s, r.refusal, s.next_at, s.next_dna));
}

static void walks(uint64_t *checks, uint8_t *guard, uint8_t *lent)
{
    for (size_t length = 0; length <= EXAMPLE; length++)
        walk_as_read(checks, bytes_at(guard, example, length), length, lent);
    for (size_t at = 0; at < EXAMPLE; at++)
        for (unsigned byte = 0; byte < 256; byte++) {
            bytes_at(guard, example, EXAMPLE);
            guard[at - EXAMPLE] = (uint8_t)byte;
            walk_as_read(checks, guard - EXAMPLE, EXAMPLE, lent);
        }
}

/* The block before a place is a DNA1 for any number but 0, and where it is none an end mark is refused. */
static void places(uint64_t *checks, uint8_t *guard)
{
    static const uint64_t past[] = {EXAMPLE + 1, EXAMPLE + 4, (uint64_t)1 << 32, MOST / 2 + 1, MOST - 4, MOST};
    static const uint64_t dnas[] = {1, 2, 256, (uint64_t)1 << 32, MOST};
    const uint8_t *file = bytes_at(guard, example, EXAMPLE);
    struct blend_step s = blend_step(file, EXAMPLE, 116, 0);

    HOLDS(refused_step(&s, 6, 116, 0));
    for (size_t i = 0; i < sizeof dnas / sizeof *dnas; i++) {
        s = blend_step(file, EXAMPLE, 116, dnas[i]);
        HOLDS(ended_step(&s, EXAMPLE, 116));
        s = blend_step(file, EXAMPLE, 40, dnas[i]);
        HOLDS(same_step(s, blend_step(file, EXAMPLE, 40, 0)) && s.code == 0x444e4131 && s.next_at == 116 && s.next_dna == 1);
        s = blend_step(file, EXAMPLE, EXAMPLE, dnas[i]);
        HOLDS(refused_step(&s, 16, EXAMPLE, 1) && s.fault_at == EXAMPLE);
    }
    for (size_t i = 0; i < sizeof past / sizeof *past; i++) {
        s = blend_step(file, EXAMPLE, past[i], 0);
        HOLDS(refused_step(&s, 13, past[i], 0));
        s = blend_step(file, EXAMPLE, past[i], MOST);
        HOLDS(refused_step(&s, 13, past[i], 1));
        s = blend_step(guard, 0, past[i], 0);
        HOLDS(refused_step(&s, 13, past[i], 0));
    }
    s = blend_step(guard, 0, 0, MOST);
    HOLDS(refused_step(&s, 1, 0, 1));
}

/* From any place in the file, also one where no block begins. */
static void places_between(uint64_t *checks, uint8_t *guard)
{
    const uint8_t *file = bytes_at(guard, example, EXAMPLE);

    for (size_t at = 0; at <= EXAMPLE; at++)
        for (uint64_t dna = 0; dna < 2; dna++) {
            struct blend_step s = blend_step(file, EXAMPLE, at, dna);

            HOLDS(same_step(s, blend_step(file, EXAMPLE, at, dna)));
            if (s.refusal != 0)
                HOLDS(refused_step(&s, s.refusal, at, dna) && s.fault_at <= EXAMPLE);
            else if (s.kind == 1)
                HOLDS(ended_step(&s, at + BLEND_END_MARK, at) && dna == 1);
            else
                HOLDS(block_step(&s, at, EXAMPLE));
        }
}

/* ---- Catalogues */

static void cut_catalogues(uint64_t *checks, uint8_t *guard, uint8_t *lent)
{
    for (size_t length = 0; length < PAYLOAD; length++) {
        uint64_t *t = table_at(lent, 10);
        struct blend_catalogue c = blend_catalogue(bytes_at(guard, catalogue, length), length, 0, t, 2, t + 2, 3, t + 5, 3, t + 8, 2);

        HOLDS(REFUSED_AT(c, 16, cut_at(catalogue_reads, length)) && left(t, 0, 10));
    }
}

/* Where a mark is both cut and wrong it is cut. */
static void marks_of_catalogues(uint64_t *checks, uint8_t *guard, uint8_t *lent)
{
    static const uint64_t marks[] = {0, 4, 16, 28, 36};

    for (size_t i = 0; i < sizeof marks / sizeof *marks; i++)
        for (size_t length = marks[i] + 1; length <= PAYLOAD; length++) {
            uint64_t *t = table_at(lent, 10);
            struct blend_catalogue c;

            bytes_at(guard, catalogue, length);
            guard[marks[i] - length] ^= 1;
            c = blend_catalogue(guard - length, length, 0, t, 2, t + 2, 3, t + 5, 3, t + 8, 2);
            HOLDS(REFUSED_AT(c, length < marks[i] + 4 ? 16 : 17, marks[i]) && left(t, 0, 10));
        }
}

/* Tables of 0 to 3 numbers each, one behind another: a table is too short below 2, 3, 3 and 2. */
static void tables_for_catalogues(uint64_t *checks, uint8_t *guard, uint8_t *lent)
{
    const uint8_t *payload = bytes_at(guard, catalogue, PAYLOAD);

    for (unsigned sizes = 0; sizes < 256; sizes++) {
        size_t n = sizes & 3, m = sizes >> 2 & 3, s = sizes >> 4 & 3, f = sizes >> 6;
        uint64_t *names = table_at(lent, n + m + s + f), *types = names + n, *structs = types + m, *fields = structs + s;
        struct blend_catalogue c = blend_catalogue(payload, PAYLOAD, 0, names, n, types, m, structs, s, fields, f);
        uint64_t which = n < 2 ? 1 : m < 3 ? 2 : s < 3 ? 3 : f < 2 ? 4 : 0;

        HOLDS(c.table == which && c.refusal == (which == 0 ? 0 : 8));
        if (which != 0) {
            HOLDS(c.needed == 1 && zeros(&c, sizeof c, REFUSAL | 4 | 8) && left(names, 0, n + m + s + f));
            continue;
        }
        HOLDS(c.names == 1 && c.types == 1 && c.structs == 1 && c.fields == 1 && c.needed == 0 && c.fault_at == 0);
        HOLDS(names[0] == 12 && names[1] == 1 && left(names, 2, n) && fields[0] == 0 && fields[1] == 0 && left(fields, 2, f));
        HOLDS(types[0] == 24 && types[1] == 3 && types[2] == 4 && structs[0] == 0 && structs[1] == 0 && structs[2] == 1);
    }
}

/* Any number but 0 is the big order: in it the first count is 2^24, and there are not so many names; the last byte is a zero, so the next name is cut at the end. */
static void orders_of_catalogues(uint64_t *checks, uint8_t *guard, uint8_t *lent)
{
    static const uint64_t orders[] = {1, 2, (uint64_t)1 << 32, MOST};
    const uint8_t *payload = bytes_at(guard, catalogue, PAYLOAD);

    for (size_t i = 0; i < sizeof orders / sizeof *orders; i++) {
        uint64_t *t = table_at(lent, 10);
        struct blend_catalogue c = blend_catalogue(payload, PAYLOAD, orders[i], t, 2, t + 2, 3, t + 5, 3, t + 8, 2);

        HOLDS(REFUSED_AT(c, 16, PAYLOAD) && left(t, 0, 10));
    }
}

/* ---- Names of fields */

struct named {
    const char *name;
    uint64_t refusal, kind, name_at, name_length, rest_at, rest_length, indirection, length, dimensions;
};

static void fields(uint64_t *checks, uint8_t *guard, uint8_t *lent)
{
    static const struct named names[] = {
        {"", 0, 0, 0, 0, 0, 0, 0, 1, 0},
        {"x", 0, 0, 0, 1, 1, 0, 0, 1, 0},
        {"(*f)", 0, 0, 0, 4, 4, 0, 0, 1, 0},
        {"(*f)()", 0, 4, 2, 1, 6, 0, 0, 1, 0},
        {"(*f)(a) z", 0, 4, 2, 1, 7, 2, 0, 1, 0},
        {"**p", 0, 2, 2, 1, 3, 0, 2, 1, 0},
        {"*m[2][3]", 0, 3, 1, 1, 8, 0, 1, 6, 2},
        {"a[3", 0, 1, 0, 1, 1, 2, 0, 1, 0},
        {"a[+3]", 0, 1, 0, 1, 5, 0, 0, 3, 1},
        {"a[0][2]b", 0, 1, 0, 1, 7, 1, 0, 0, 2},
        {"a[18446744073709551615]", 0, 1, 0, 1, 23, 0, 0, MOST, 1},
        {"a[18446744073709551616]", 9, 0, 0, 0, 0, 0, 0, 0, 0},
        {"a[]", 9, 0, 0, 0, 0, 0, 0, 0, 0},
        {"a[-0]", 9, 0, 0, 0, 0, 0, 0, 0, 0},
        {"a[4294967296][4294967296]", 10, 0, 0, 0, 0, 0, 0, 0, 0},
        {"a[4294967296][4294967296][0]", 0, 1, 0, 1, 28, 0, 0, 0, 3},
    };

    for (size_t i = 0; i < sizeof names / sizeof *names; i++) {
        const struct named *n = &names[i];
        size_t length = strlen(n->name);
        uint64_t *table = table_at(lent, 4);
        struct blend_field f = blend_field(bytes_at(guard, n->name, length), length, table, 4);

        HOLDS(f.refusal == n->refusal && f.needed == 0 && f.kind == n->kind && f.name_at == n->name_at && f.name_length == n->name_length);
        HOLDS(f.rest_at == n->rest_at && f.rest_length == n->rest_length);
        HOLDS(f.indirection == n->indirection && f.length == n->length && f.dimensions == n->dimensions && left(table, f.dimensions, 4));
    }
}

/* A table that is too short comes after a dimension that is no number, and before a product that is too large. */
static void tables_for_fields(uint64_t *checks, uint8_t *guard, uint8_t *lent)
{
    static const char large[] = "a[4294967296][4294967296][2]", wrong[] = "a[4294967296][x][2]";

    for (size_t numbers = 0; numbers < 5; numbers++) {
        uint64_t *table = table_at(lent, numbers);
        struct blend_field f = blend_field(bytes_at(guard, large, sizeof large - 1), sizeof large - 1, table, numbers);

        HOLDS(f.refusal == (numbers < 3 ? 11 : 10) && f.needed == (numbers < 3 ? 3 : 0));
        HOLDS(zeros(&f, sizeof f, 3) && left(table, 0, numbers));
        f = blend_field(bytes_at(guard, wrong, sizeof wrong - 1), sizeof wrong - 1, table, numbers);
        HOLDS(f.refusal == 9 && zeros(&f, sizeof f, 1) && left(table, 0, numbers));
    }
}

/* What blend_width has to answer of a declarator that is told by these numbers. */
static bool as_wide(struct blend_value w, const struct blend_field *f, uint64_t size, uint64_t pointer_bytes)
{
    uint64_t unit = f->kind == 2 || f->kind == 3 || f->kind == 4 ? (pointer_bytes == 4 ? 4 : 8) : size;
    uint64_t elements = f->kind == 1 || f->kind == 3 ? f->length : 1;

    if (f->refusal != 0 || f->rest_length != 0)
        return w.refusal == 15 && w.value == 0;
    if (unit != 0 && elements > MOST / unit)
        return w.refusal == 10 && w.value == 0;
    return w.refusal == 0 && w.value == unit * elements;
}

/* Names of all sorts, with a table as long as they ask for. The answer tells parts of the name, and the dimensions have the length for their product. */
static void many_fields(uint64_t *checks, uint8_t *guard, uint8_t *lent)
{
    uint64_t state = 88172645463325252;

    for (unsigned i = 0; i < 50000; i++) {
        char name[16];
        size_t length = i % 17;
        uint64_t *table = table_at(lent, 0), product = 1;
        struct blend_field f;

        for (size_t k = 0; k < length; k++) {
            state ^= state << 13, state ^= state >> 7, state ^= state << 17;
            name[k] = "(*)[[]]+02349a*[]"[state % 17];
        }
        f = blend_field(bytes_at(guard, name, length), length, table, 0);
        if (f.refusal == 11) {
            table = table_at(lent, f.needed + 1);
            f = blend_field(guard - length, length, table, f.needed);
            HOLDS(f.refusal != 11 && left(table, f.dimensions, f.dimensions + 1));
        }
        HOLDS(f.refusal == 0 || f.refusal == 9 || f.refusal == 10);
        HOLDS(f.refusal == 0 || zeros(&f, sizeof f, 1));
        for (size_t k = 0; k < f.dimensions; k++)
            product *= table[k];
        HOLDS(f.refusal != 0 || f.length == product);
        HOLDS(f.kind <= 4 && f.name_at + f.name_length <= length && f.rest_at + f.rest_length == (f.refusal == 0 ? length : 0));
        HOLDS(as_wide(blend_width(f, state, i % 9), &f, state, i % 9));
    }
}

static void widths(uint64_t *checks)
{
    static const uint64_t asked[][6] = {
        /* kind, length, size, bytes to a pointer: refusal, value, where nothing is left of the name */
        {0, 7, 12, 8, 0, 12},
        {5, 7, 12, 8, 0, 12},
        {MOST, 7, 12, 8, 0, 12},
        {1, 7, 12, 8, 0, 84},
        {2, 7, 12, 8, 0, 8},
        {2, 7, 12, 4, 0, 4},
        {2, 7, 12, 0, 0, 8},
        {2, 7, 12, MOST, 0, 8},
        {3, 7, 12, 8, 0, 56},
        {3, 7, 12, 4, 0, 28},
        {4, 7, 12, 8, 0, 8},
        {4, 7, 12, 4, 0, 4},
        {0, MOST, MOST, 8, 0, MOST},
        {1, 0, MOST, 8, 0, 0},
        {1, MOST, 0, 8, 0, 0},
        {1, MOST, 1, 8, 0, MOST},
        {1, MOST, 2, 8, 10, 0},
        {1, MOST / 2 + 1, 2, 8, 10, 0},
        {3, MOST / 2 + 1, 0, 4, 10, 0},
        {3, MOST / 8, 0, 8, 0, MOST - 7},
        {3, MOST / 8 + 1, 0, 8, 10, 0},
    };
    static const uint64_t some[] = {1, 2, 9, 10, 11, 15, (uint64_t)1 << 32, MOST};

    for (size_t i = 0; i < sizeof asked / sizeof *asked; i++) {
        const uint64_t *a = asked[i];
        struct blend_field f = {.kind = a[0], .name_at = MOST, .rest_at = MOST, .indirection = MOST, .length = a[1], .dimensions = MOST};
        struct blend_value w = blend_width(f, a[2], a[3]);

        HOLDS(w.refusal == a[4] && w.value == a[5] && as_wide(w, &f, a[2], a[3]));
        for (size_t k = 0; k < sizeof some / sizeof *some; k++) {
            f.rest_length = some[k];
            f.rest_at = k % 2 == 0 ? 0 : MOST;
            w = blend_width(f, a[2], a[3]);
            HOLDS(w.refusal == 15 && w.value == 0);
            f.rest_length = 0;
            f.refusal = some[k];
            w = blend_width(f, a[2], a[3]);
            HOLDS(w.refusal == 15 && w.value == 0);
            f.refusal = 0;
        }
    }
}

/* ---- Rows: views, addresses */

/* Row numbers and row counts that two rows do not have, among them some that times 7 wrap round to a number that the table has: the seventh to 5, the
 * eighth to 1. */
static const uint64_t huge[] = {
    2, 3, (uint64_t)1 << 32, (uint64_t)1 << 61, MOST / 2 + 1, MOST / 7, MOST / 7 + 1, 7905747460161236407, MOST / 56 + 1, MOST - 1, MOST,
};

static void views(uint64_t *checks, uint8_t *guard, uint8_t *lent)
{
    static const uint64_t parts[][3] = {
        /* offset, length: refusal, in a file of 120 bytes */
        {36, 4, 0},
        {0, 120, 0},
        {120, 0, 0},
        {0, 0, 0},
        {121, 0, 13},
        {120, 1, 13},
        {0, 121, 13},
        {1, 120, 13},
        {MOST, 0, 13},
        {0, MOST, 13},
        {MOST, 1, 13},
        {1, MOST, 13},
        {MOST, MOST, 13},
    };
    const uint8_t *file = bytes_at(guard, example, EXAMPLE);
    uint64_t *table = table_at(lent, ROWS);
    struct blend_view v;

    for (size_t i = 0; i < sizeof parts / sizeof *parts; i++) {
        table[BLEND_ROW + 5] = parts[i][0];
        table[BLEND_ROW + 6] = parts[i][1];
        v = blend_view(file, EXAMPLE, table, ROWS, 1);
        HOLDS(v.refusal == parts[i][2]);
        HOLDS(v.refusal != 0 ? zeros(&v, sizeof v, 1) : v.at == parts[i][0] && v.length == parts[i][1]);
        HOLDS(blend_view(file, EXAMPLE, table + 1, ROWS - 1, 1).refusal == 13);
    }
}

static void views_of_no_row(uint64_t *checks, uint8_t *guard, uint8_t *lent)
{
    const uint8_t *file = bytes_at(guard, example, EXAMPLE);
    uint64_t *table = table_at(lent, ROWS);
    struct blend_view v;

    for (size_t i = 0; i < ROWS; i++)
        table[i] = 0;
    for (size_t i = 0; i < sizeof huge / sizeof *huge; i++) {
        v = blend_view(file, EXAMPLE, table, ROWS, huge[i]);
        HOLDS(v.refusal == 13 && zeros(&v, sizeof v, 1));
        v = blend_view(guard, 0, (uint64_t *)lent, 0, huge[i] - 2);
        HOLDS(v.refusal == 13 && zeros(&v, sizeof v, 1));
    }
    HOLDS(blend_view(guard, 0, table, ROWS, 1).refusal == 0);
}

static bool leads(struct blend_pointer p, uint64_t refusal, uint64_t kind, uint64_t row)
{
    return p.refusal == refusal && p.kind == kind && p.row == row;
}

static void addresses(uint64_t *checks, uint8_t *lent)
{
    uint64_t *table = table_at(lent, ROWS), *second = table + BLEND_ROW;

    table[0] = 0x4f420000, table[1] = 16, second[0] = 0x44415441, second[1] = 32;
    HOLDS(leads(blend_lookup(table, ROWS, 2, 16), 0, 1, 0) && leads(blend_lookup(table, ROWS, 2, 32), 0, 1, 1));
    HOLDS(leads(blend_lookup(table, ROWS, 1, 32), 0, 2, 0) && leads(blend_lookup(table, ROWS, 2, 17), 0, 2, 0));
    HOLDS(leads(blend_lookup(table, ROWS, 2, 0), 0, 0, 0) && leads(blend_lookup(table, ROWS, 0, 16), 0, 2, 0));
    HOLDS(leads(blend_lookup(table, ROWS, 0, 0), 0, 0, 0) && leads(blend_lookup((uint64_t *)lent, 0, 0, 16), 0, 2, 0));
    HOLDS(leads(blend_lookup((uint64_t *)lent, 0, 0, 0), 0, 0, 0) && leads(blend_lookup((uint64_t *)lent, 0, 1, 0), 13, 0, 0));
    HOLDS(leads(blend_lookup(table + 1, ROWS - 1, 2, 16), 13, 0, 0));
    for (size_t i = 1; i < sizeof huge / sizeof *huge; i++)
        HOLDS(leads(blend_lookup(table, ROWS, huge[i], 16), 13, 0, 0) && leads(blend_lookup(table, ROWS, huge[i], 0), 13, 0, 0));
    second[1] = 16;
    HOLDS(leads(blend_lookup(table, ROWS, 2, 16), 0, 1, 0));
    table[0] = 0x444e4131;
    HOLDS(leads(blend_lookup(table, ROWS, 2, 16), 0, 1, 1));
    second[0] = 0x144415441, second[1] = MOST;
    HOLDS(leads(blend_lookup(table, ROWS, 2, MOST), 0, 2, 0));
    second[0] = 0x44415441;
    HOLDS(leads(blend_lookup(table, ROWS, 2, MOST), 0, 1, 1));
}

/* ---- An index over four rows, three of them with one address: a GLOB block, an object, a DATA block with an address of its own, and an object */

enum { FOUR = 4 * BLEND_ROW };

static const uint64_t four[4][2] = {{0x474c4f42, 16}, {0x4f420000, 16}, {0x44415441, 17}, {0x4f420000, 16}};

static uint64_t *four_rows(uint8_t *guard)
{
    uint64_t *table = table_at(guard, FOUR);

    for (size_t i = 0; i < 4; i++)
        table[BLEND_ROW * i] = four[i][0], table[BLEND_ROW * i + 1] = four[i][1];
    return table;
}

static bool holds_numbers(const uint64_t *table, const uint64_t *numbers, size_t count)
{
    return memcmp(table, numbers, count * sizeof *numbers) == 0;
}

/* Every length of the two tables and the row table, about what is needed. */
static void indexes(uint64_t *checks, uint8_t *guard, uint8_t *heads_guard, uint8_t *links_guard)
{
    static const uint64_t two_heads[] = {1, 3}, all_links[] = {2, 4, 0, 0};

    for (size_t i = 0; i < 5 * 6 * 6; i++) {
        size_t buckets = i % 5, heads_numbers = i / 5 % 6, links_numbers = i / 30;
        uint64_t *table = four_rows(guard), *heads = table_at(heads_guard, heads_numbers), *links = table_at(links_guard, links_numbers);
        struct blend_index n = blend_index(table, FOUR, 4, buckets, heads, heads_numbers, links, links_numbers);

        if (buckets == 0 || heads_numbers < buckets || links_numbers < 4) {
            HOLDS(n.refusal == 14 && n.buckets == (buckets == 0 ? 1 : buckets) && n.rows == 4);
            HOLDS(left(heads, 0, heads_numbers) && left(links, 0, links_numbers));
        } else {
            HOLDS(zeros(&n, sizeof n, 0) && left(heads, buckets, heads_numbers) && left(links, 4, links_numbers));
            HOLDS(buckets != 2 || (holds_numbers(heads, two_heads, 2) && holds_numbers(links, all_links, 4)));
        }
        n = blend_index(table + 1, FOUR - 1, 4, buckets, table_at(heads_guard, heads_numbers), heads_numbers, table_at(links_guard, links_numbers), links_numbers);
        HOLDS(n.refusal == 13 && zeros(&n, sizeof n, 1) && left(heads, 0, heads_numbers) && left(links, 0, links_numbers));
    }
    for (size_t i = 2; i < sizeof huge / sizeof *huge; i++) {
        uint64_t *table = four_rows(guard), *heads = table_at(heads_guard, 2), *links = table_at(links_guard, 4);
        struct blend_index n = blend_index(table, FOUR, 4, huge[i], heads, 2, links, 4);

        HOLDS(n.refusal == 14 && n.buckets == huge[i] && n.rows == 4 && left(heads, 0, 2) && left(links, 0, 4));
        n = blend_index(table, FOUR, huge[i], 2, heads, 2, links, 4);
        HOLDS(n.refusal == 13 && zeros(&n, sizeof n, 1) && left(heads, 0, 2) && left(links, 0, 4));
    }
    HOLDS(blend_index((uint64_t *)guard, 0, 0, 1, table_at(heads_guard, 1), 1, (uint64_t *)links_guard, 0).refusal == 0);
    HOLDS(((uint64_t *)heads_guard)[-1] == 0);
}

static bool found(struct blend_found f, uint64_t refusal, uint64_t kind, uint64_t row)
{
    return f.refusal == refusal && f.kind == kind && f.row == row && f.buckets == 0 && f.rows == 0;
}

static struct blend_found find_by(uint8_t *guard, uint8_t *heads_guard, uint8_t *links_guard, const uint64_t heads[2], const uint64_t links[4], uint64_t address)
{
    uint64_t *first = table_at(heads_guard, 2), *next = table_at(links_guard, 4);

    memcpy(first, heads, 2 * sizeof *heads);
    memcpy(next, links, 4 * sizeof *links);
    return blend_find(four_rows(guard), FOUR, 4, 2, first, 2, next, 4, address);
}

static void finds(uint64_t *checks, uint8_t *guard, uint8_t *heads_guard, uint8_t *links_guard)
{
    static const uint64_t asked[] = {0, 15, 16, 17, 18, MOST};

    for (size_t buckets = 1; buckets < 9; buckets++)
        for (size_t i = 0; i < sizeof asked / sizeof *asked; i++) {
            uint64_t *table = four_rows(guard), *heads = table_at(heads_guard, buckets), *links = table_at(links_guard, 4);
            struct blend_pointer plain = blend_lookup(table, FOUR, 4, asked[i]);

            HOLDS(blend_index(table, FOUR, 4, buckets, heads, buckets, links, 4).refusal == 0);
            HOLDS(found(blend_find(table, FOUR, 4, buckets, heads, buckets, links, 4, asked[i]), 0, plain.kind, plain.row));
        }
}

/* Numbers that no building left. */
static void odd_chains(uint64_t *checks, uint8_t *g, uint8_t *h, uint8_t *l)
{
    static const uint64_t one[2] = {1, 1}, three[2] = {3, 3}, four_first[2] = {4, 4}, past[2] = {5, 5}, most[2] = {MOST, MOST}, none[2] = {0, 0};
    static const uint64_t stays[4] = {1, 2, 3, 4}, falls[4] = {0, 0, 2, 0}, leaves[4] = {5, 5, 5, 5}, leaps[4] = {4, 0, 4, MOST}, ends[4] = {0, 0, 0, 0};

    HOLDS(found(find_by(g, h, l, one, stays, 16), 13, 0, 0) && found(find_by(g, h, l, three, falls, 16), 13, 0, 0));
    HOLDS(found(find_by(g, h, l, one, leaves, 16), 13, 0, 0) && found(find_by(g, h, l, past, ends, 16), 13, 0, 0));
    HOLDS(found(find_by(g, h, l, most, ends, 16), 13, 0, 0) && found(find_by(g, h, l, none, stays, 16), 0, 2, 0));
    HOLDS(found(find_by(g, h, l, one, leaps, 16), 0, 1, 3) && found(find_by(g, h, l, four_first, leaps, 16), 0, 1, 3));
    HOLDS(found(find_by(g, h, l, three, leaps, 17), 0, 1, 2) && found(find_by(g, h, l, one, ends, 16), 0, 2, 0));
    HOLDS(found(find_by(g, h, l, most, stays, 0), 0, 0, 0));
}

static void finds_refused(uint64_t *checks, uint8_t *guard, uint8_t *heads_guard, uint8_t *links_guard)
{
    for (size_t i = 0; i < 5 * 6 * 6; i++) {
        size_t buckets = i % 5, heads_numbers = i / 5 % 6, links_numbers = i / 30;
        uint64_t *table = four_rows(guard), *heads = table_at(heads_guard, heads_numbers), *links = table_at(links_guard, links_numbers);
        struct blend_found f = blend_find(table, FOUR, 4, buckets, heads, heads_numbers, links, links_numbers, 0);
        bool is_short = buckets == 0 || heads_numbers < buckets || links_numbers < 4;

        HOLDS(is_short ? f.refusal == 14 && f.buckets == (buckets == 0 ? 1 : buckets) && f.rows == 4 && f.kind == 0 && f.row == 0 : found(f, 0, 0, 0));
        HOLDS(found(blend_find(table + 1, FOUR - 1, 4, buckets, heads, heads_numbers, links, links_numbers, 0), 13, 0, 0));
    }
}

/* ---- Writing */

static uint8_t *output_at(uint8_t *guard, size_t length)
{
    for (size_t i = 0; i < length; i++)
        guard[i - length] = (uint8_t)filling;
    return guard - length;
}

static bool bytes_left(const uint8_t *bytes, size_t from, size_t length)
{
    for (size_t i = from; i < length; i++)
        if (bytes[i] != (uint8_t)filling)
            return false;
    return true;
}

/* Where an answer has what its refusal carries. */
enum { NOTHING, FAULT_PLACE, NEEDED_PLACE, ROW_PLACE };

/* Whether an answer is refused by that number, carries that one in that place, and has no other; and the output is left. */
static bool refused_write(const struct blend_written *w, uint64_t refusal, unsigned place, uint64_t carried, const uint8_t *out, size_t room)
{
    return w->refusal == refusal && zeros(w, sizeof *w, REFUSAL | 1u << place) && (place == NOTHING || ((const uint64_t *)w)[place] == carried) && bytes_left(out, 0, room);
}

/* The example from its own rows, in outputs of every length; and from a source that ends before the last payload does, or with fewer rows than are told. */
static void rooms(uint64_t *checks, uint8_t *guard, uint8_t *lent, uint8_t *output)
{
    uint64_t *table = table_at(lent, ROWS);
    const uint8_t *file = bytes_at(guard, example, EXAMPLE);
    struct blend_written w;

    HOLDS(blend_read(file, EXAMPLE, table, ROWS).refusal == 0);
    for (size_t room = 0; room < EXAMPLE + 9; room++) {
        uint8_t *out = output_at(output, room);

        w = blend_write(0, 8, 0, 2, 80, table, ROWS, 2, file, EXAMPLE, out, room);
        if (room < EXAMPLE)
            HOLDS(refused_write(&w, 18, NEEDED_PLACE, EXAMPLE, out, room));
        else
            HOLDS(w.written == EXAMPLE && zeros(&w, sizeof w, 1 << 4) && memcmp(out, example, EXAMPLE) == 0 && bytes_left(out, EXAMPLE, room));
    }
    for (size_t length = 0; length < EXAMPLE - BLEND_END_MARK; length++) {
        uint8_t *out = output_at(output, EXAMPLE);

        w = blend_write(0, 8, 0, 2, 80, table, ROWS, 2, bytes_at(guard, example, length), length, out, EXAMPLE);
        HOLDS(refused_write(&w, 13, NOTHING, 0, out, EXAMPLE));
    }
    file = bytes_at(guard, example, EXAMPLE);
    for (size_t numbers = 0; numbers < ROWS; numbers++) {
        uint8_t *out = output_at(output, EXAMPLE);

        w = blend_write(0, 8, 0, 2, 80, table, numbers, 2, file, EXAMPLE, out, EXAMPLE);
        HOLDS(refused_write(&w, 13, NOTHING, 0, out, EXAMPLE));
    }
    w = blend_write(0, 8, 0, 2, 80, table, 0, 0, guard, 0, output, 0);
    HOLDS(refused_write(&w, 6, NOTHING, 0, output, 0));
    w = blend_write(MOST, MOST, MOST, MOST, MOST, table, ROWS, MOST, file, EXAMPLE, output, 0);
    HOLDS(refused_write(&w, 13, NOTHING, 0, output, 0));
}

/* Numbers of a header that stand for nothing, or that the form has no room for, are 19 with the row count; but any order except 0 is big, and the catalogue is little. */
static void numbers_of_headers(uint64_t *checks, uint8_t *guard, uint8_t *lent, uint8_t *output)
{
    static const uint64_t none[][5] = {
        {2, 8, 0, 2, 80}, {MOST, 8, 0, 2, 80}, {0, 0, 0, 2, 80}, {0, 5, 0, 2, 80}, {0, 32, 0, 2, 80}, {0, 64, 0, 2, 80}, {0, MOST, 0, 2, 80}, {0, 8, 0, 10, 80},
        {0, 8, 0, 2, 100}, {0, 8, 0, 65536, 80}, {0, 8, 0, 2, 65536}, {0, 8, 0, 65538, 80}, {0, 8, 0, MOST, MOST}, {1, 8, 0, 100, 80}, {1, 8, 0, 2, 100}, {1, 4, 0, 2, 80},
    };
    static const uint64_t orders[] = {1, 2, (uint64_t)1 << 32, MOST};
    uint64_t *table = table_at(lent, ROWS);
    const uint8_t *file = bytes_at(guard, example, EXAMPLE);
    struct blend_written w;

    HOLDS(blend_read(file, EXAMPLE, table, ROWS).refusal == 0);
    for (size_t i = 0; i < sizeof none / sizeof *none; i++) {
        uint8_t *out = output_at(output, 2 * EXAMPLE);

        w = blend_write(none[i][0], none[i][1], none[i][2], none[i][3], none[i][4], table, ROWS, 2, file, EXAMPLE, out, 2 * EXAMPLE);
        HOLDS(refused_write(&w, 19, ROW_PLACE, 2, out, 2 * EXAMPLE));
    }
    for (size_t i = 0; i < sizeof orders / sizeof *orders; i++) {
        uint8_t *out = output_at(output, 2 * EXAMPLE);

        w = blend_write(0, 8, orders[i], 2, 80, table, ROWS, 2, file, EXAMPLE, out, 2 * EXAMPLE);
        HOLDS(refused_write(&w, 16, FAULT_PLACE, PAYLOAD, out, 2 * EXAMPLE));
    }
    for (uint64_t edition = 0; edition < 2; edition++)
        for (uint64_t major = 0; major <= (edition == 0 ? 9 : 99); major++) {
            uint8_t *out = output_at(output, 2 * EXAMPLE);
            struct blend_header h;

            w = blend_write(edition, 8, 0, major, 99 - major, table, ROWS, 2, file, EXAMPLE, out, 2 * EXAMPLE);
            h = blend_header(out, w.written);
            HOLDS(w.refusal == 0 && h.refusal == 0 && h.edition == edition && h.pointer_bytes == 8 && h.order == 0 && h.major == major && h.minor == 99 - major);
        }
}

/* ---- Values */

static void values(uint64_t *checks, uint8_t *guard)
{
    static const struct {
        struct blend_value (*of)(const uint8_t *, size_t, uint64_t);
        size_t width;
    } kinds[] = {{blend_u8, 1}, {blend_u16, 2}, {blend_u32, 4}, {blend_u64, 8}};
    static const uint64_t orders[] = {0, 1, 2, (uint64_t)1 << 32, MOST};

    for (size_t i = 0; i < 4 * 5 * 10; i++) {
        size_t width = kinds[i / 50].width, length = i % 10;
        uint64_t order = orders[i / 10 % 5], value = 0;
        struct blend_value v = kinds[i / 50].of(bytes_at(guard, "\x81\x92\xa3\xb4\xc5\xd6\xe7\xf8\x09", length), length, order);

        for (size_t k = 0; k < width; k++)
            value = value << 8 | (uint8_t) "\x81\x92\xa3\xb4\xc5\xd6\xe7\xf8"[order == 0 ? width - 1 - k : k];
        HOLDS(length < width ? v.refusal == 12 && v.value == 0 : v.refusal == 0 && v.value == value);
    }
}

int main(void)
{
    uint8_t *bytes = guarded(), *lent = guarded(), *heads = guarded(), *links = guarded();
    uint64_t count = 0, *checks = &count;

    headers(checks, bytes);
    new_headers(checks, bytes);
    cut_files(checks, bytes, lent);
    tables_for_files(checks, bytes, lent);
    damaged_files(checks, bytes, lent);
    wrong_marks(checks, bytes, lent);
    walks(checks, bytes, lent);
    places(checks, bytes);
    places_between(checks, bytes);
    cut_catalogues(checks, bytes, lent);
    marks_of_catalogues(checks, bytes, lent);
    tables_for_catalogues(checks, bytes, lent);
    orders_of_catalogues(checks, bytes, lent);
    fields(checks, bytes, lent);
    tables_for_fields(checks, bytes, lent);
    many_fields(checks, bytes, lent);
    widths(checks);
    views(checks, bytes, lent);
    views_of_no_row(checks, bytes, lent);
    addresses(checks, lent);
    indexes(checks, lent, heads, links);
    finds(checks, lent, heads, links);
    odd_chains(checks, lent, heads, links);
    finds_refused(checks, lent, heads, links);
    rooms(checks, bytes, lent, heads);
    numbers_of_headers(checks, bytes, lent, heads);
    values(checks, bytes);
    HOLDS(EXAMPLE == 120 && PAYLOAD == 52);
    printf("%lu checks hold\n", count);
    return 0;
}
