/* blendscan: what a .blend file has in it.
 *
 * All reading is done by the proved library of blend.h. Every number that is printed was answered by one of its calls or stands in a table that a call filled, is made
 * of such numbers and of the file's length, or counts the lines; of the file itself bytes are shown, and none is interpreted here. (words.c looks at bytes to say
 * what was being read where the library refused a file, and is held to the place that the library told.) */
#include "libc.h"

#include "blend.h"
#include "words.h"

/* What the program ends with. Of several files the highest counts. */
enum { ALL_READ, REFUSED, NOT_HAD, BROKEN };

enum mode { LISTING, SUMMARY, CATALOGUE, FINDING };

/* The refusals of blend.h that ask for a larger table, and that of a name after which something is left. */
enum { ROWS_SHORT = 7, DIMENSIONS_SHORT = 11, NAME_NOT_FULLY_READ = 15 };

/* How many rows are lent at first, at most. */
enum { FIRST_ROWS = 1 << 16 };

/* Where the numbers of a row stand in the tables: of a block, of a name or type, of a struct, of a field. */
enum { CODE, ADDRESS, INDEX, COUNT, HEADER_AT, PAYLOAD_AT, PAYLOAD_LENGTH };
enum { TEXT_AT, TEXT_LENGTH, TYPE_SIZE };
enum { STRUCT_TYPE, STRUCT_FIRST, STRUCT_FIELDS };
enum { FIELD_TYPE, FIELD_NAME };

/* ---- Output */

static char output[1 << 16];

/* All that was printed is written, or the program ends. */
static void settle(void)
{
    if (fflush(stdout) == 0 && !ferror(stdout))
        return;
    fprintf(stderr, "blendscan: standard output: cannot be written: %s\n", strerror(errno));
    exit(BROKEN);
}

/* printf that ends the program at the first thing that cannot be written. */
__attribute__((format(printf, 1, 2))) static void print(const char *format, ...)
{
    va_list words;
    int wrote;

    va_start(words, format);
    wrote = vprintf(format, words);
    va_end(words);
    if (wrote < 0)
        settle();
}

static void put_byte(uint8_t byte)
{
    if (putchar(byte) < 0)
        settle();
}

/* A file's name with its bytes as they are, but those that would break a line up or steer a terminal, and the backslash, as \xHH. */
static void put_file_name(FILE *to, const char *name)
{
    if (*name == 0)
        fprintf(to, "\"\"");
    for (; *name != 0; name++) {
        unsigned char byte = (unsigned char)*name;

        if (byte < ' ' || byte == 0x7f || byte == '\\')
            fprintf(to, "\\x%02x", byte);
        else
            fputc(byte, to);
    }
}

/* The start of a line on standard error, after what was printed, so that the two stay in order where they are seen together. */
static void begin_complaint(const char *name)
{
    settle();
    fprintf(stderr, "blendscan: ");
    put_file_name(stderr, name);
    fprintf(stderr, ": ");
}

/* A whole line on standard error. */
__attribute__((format(printf, 2, 3))) static void complain(const char *name, const char *format, ...)
{
    va_list words;

    begin_complaint(name);
    va_start(words, format);
    vfprintf(stderr, format, words);
    va_end(words);
    fprintf(stderr, "\n");
}

/* ---- Memory */

/* Room for that many elements, with what the old room held. It is never null, since no slice that is lent may be. */
static void *room_for(void *old, uint64_t count, size_t size)
{
    void *room = count < SIZE_MAX / size ? realloc(old, (count + 1) * size) : NULL;

    if (room == NULL) {
        settle();
        fprintf(stderr, "blendscan: there is not enough memory\n");
        exit(BROKEN);
    }
    return room;
}

static uint64_t *table_for(uint64_t rows, size_t numbers)
{
    return room_for(NULL, rows, numbers * sizeof(uint64_t));
}

/* ---- Files */

struct file {
    const char *name; /* as it is told to the user */
    uint8_t *bytes;
    size_t length;
    int from;
    bool mapped;
    struct stat taken; /* of a mapped file: how it was */
};

/* The library's answers hold of bytes that nobody changes meanwhile. Where somebody does change a mapped file, a signal may come of it; where none does, `kept` below
 * finds the change. */
static char scanned[256]; /* the name of the file, for the handler, which may not do more than write */

static void name_scanned(const char *name)
{
    size_t length = 0;

    for (; name[length] != 0 && length < sizeof scanned - 1; length++)
        scanned[length] = name[length];
    scanned[length] = 0;
    for (size_t i = 0; i < length; i++)
        if ((unsigned char)scanned[i] < ' ' || scanned[i] == 0x7f)
            scanned[i] = '?';
}

static void lost(int signal)
{
    static const char first[] = "blendscan: ", last[] = ": it was changed, or could not be read, while it was scanned\n";
    ssize_t wrote = write(STDERR_FILENO, first, sizeof first - 1);

    wrote += write(STDERR_FILENO, scanned, strlen(scanned));
    wrote += write(STDERR_FILENO, last, sizeof last - 1);
    (void)signal;
    (void)wrote;
    _exit(NOT_HAD);
}

/* False for what cannot be mapped: a pipe, a folder, an empty file. */
static bool map_file(struct file *f)
{
    void *at;

    if (fstat(f->from, &f->taken) != 0 || !S_ISREG(f->taken.st_mode) || f->taken.st_size <= 0)
        return false;
    at = mmap(NULL, (size_t)f->taken.st_size, PROT_READ, MAP_PRIVATE, f->from, 0);
    if (at == MAP_FAILED)
        return false;
    f->bytes = at;
    f->length = (size_t)f->taken.st_size;
    f->mapped = true;
    return true;
}

/* Whether a mapped file is as it was when it was taken, by its size and the time of its last change. */
static bool kept(const struct file *f)
{
    struct stat now;

    if (!f->mapped)
        return true;
    if (fstat(f->from, &now) == 0 && now.st_size == f->taken.st_size && now.st_mtim.tv_sec == f->taken.st_mtim.tv_sec
        && now.st_mtim.tv_nsec == f->taken.st_mtim.tv_nsec)
        return true;
    complain(f->name, "it was changed while it was scanned, and nothing that is said of it counts");
    return false;
}

/* Reads to the end, however short the pieces are. */
static bool read_file(struct file *f)
{
    size_t room = 0;
    ssize_t got;

    do {
        if (f->length == room) {
            room = room == 0 ? 1 << 16 : 2 * room;
            f->bytes = room_for(f->bytes, room, 1);
        }
        got = read(f->from, f->bytes + f->length, room - f->length);
        if (got > 0)
            f->length += (size_t)got;
    } while (got > 0 || (got < 0 && errno == EINTR));
    return got == 0;
}

static void drop_file(struct file *f)
{
    if (f->mapped)
        munmap(f->bytes, f->length);
    else
        free(f->bytes);
    if (f->from > STDIN_FILENO)
        close(f->from);
}

/* The file's bytes, mapped where that is possible. False, and the reason is told, where they cannot be had. */
static bool take_file(struct file *f, const char *name)
{
    bool standard = strcmp(name, "-") == 0;
    bool had = false;

    *f = (struct file){.name = standard ? "standard input" : name};
    f->from = standard ? STDIN_FILENO : open(name, O_RDONLY);
    if (f->from >= 0)
        had = (!standard && map_file(f)) || read_file(f);
    if (!had) {
        complain(f->name, "cannot be read: %s", strerror(errno));
        drop_file(f);
    }
    return had;
}

/* ---- Reading */

struct scene {
    struct file file;
    struct blend_read read;
    uint64_t *rows;
    size_t numbers; /* the length of rows */
};

static void read_into(struct scene *s, uint64_t rows)
{
    s->rows = table_for(rows, BLEND_ROW);
    s->numbers = rows * BLEND_ROW;
    s->read = blend_read(s->file.bytes, s->file.length, s->rows, s->numbers);
}

/* The first call is lent as many rows as the file can have, but no more than FIRST_ROWS; where it has more, they are told, and the second call is lent them. */
static void read_scene(struct scene *s)
{
    uint64_t most = s->file.length / BLEND_BLOCK_LEAST;

    read_into(s, most < FIRST_ROWS ? most : FIRST_ROWS);
    if (s->read.refusal != ROWS_SHORT)
        return;
    free(s->rows);
    read_into(s, s->read.needed);
}

static const char *edition_of(const struct scene *s)
{
    return s->read.edition == 0 ? "legacy" : "new";
}

static const char *order_of(const struct scene *s)
{
    return s->read.order == 0 ? "little" : "big";
}

static const char *refusal_words(uint64_t refusal)
{
    switch (refusal) {
    case 1: return "it does not begin with \"BLENDER\": it is compressed, or no .blend file";
    case 3: return "a block's address is 0";
    case 4: return "the count of a principal block (an object, a lamp, a mesh, ..) is not 1";
    case 5: return "a block's code is none of those that are known (two letters and two zeros, REND, TEST, GLOB, DATA, DNA1)";
    case 6: return "the last block is not DNA1, the catalogue of types, or there is no block";
    case 7: return "the row table is too short";
    case 9: return "a dimension is no number of at most 2^64-1";
    case 10: return "a product is over 2^64-1";
    case 15: return "its name is not fully read, so it has no width";
    default: return "for a reason that is not known here";
    }
}

static void complain_of_fault(const struct scene *s)
{
    begin_complaint(s->file.name);
    fprintf(stderr, "refused %lu at ", s->read.refusal);
    put_grouped(stderr, s->read.fault_at);
    fprintf(stderr, ": ");
    put_fault(stderr, s->file.bytes, s->file.length, s->read.refusal, s->read.fault_at);
    fprintf(stderr, "\n");
}

static int tell_refusal(const struct scene *s)
{
    uint64_t refusal = s->read.refusal;
    bool placed = refusal == CUT_SHORT || refusal == WRONG_MARK;

    print("refused %lu", refusal);
    if (placed || refusal == ROWS_SHORT)
        print(" %lu", placed ? s->read.fault_at : s->read.needed);
    print("\n");
    if (s->file.length == 0)
        complain(s->file.name, "refused %lu: it is empty", refusal);
    else if (placed)
        complain_of_fault(s);
    else
        complain(s->file.name, "refused %lu: %s; it has %zu bytes", refusal, refusal_words(refusal), s->file.length);
    return REFUSED;
}

/* ---- The listing */

static void put_block(const struct scene *s, uint64_t number)
{
    const uint64_t *row = s->rows + BLEND_ROW * number;

    print("block %lu %08lx %lu %lu %lu %lu %lu %lu\n", number, row[CODE], row[ADDRESS], row[INDEX], row[COUNT], row[HEADER_AT], row[PAYLOAD_AT],
          row[PAYLOAD_LENGTH]);
}

static int list(const struct scene *s)
{
    const struct blend_read *r = &s->read;

    print("blend %s %lu %s %lu %lu\n", edition_of(s), 8 * r->pointer_bytes, order_of(s), r->major, r->minor);
    for (uint64_t i = 0; i < r->rows; i++)
        put_block(s, i);
    print("dna %lu %lu %lu %lu\n", r->names, r->types, r->structs, r->fields);
    print("end %lu\n", r->end);
    return ALL_READ;
}

/* ---- What addresses lead to */

/* The addresses that the command line asks for. */
static struct {
    uint64_t *addresses;
    uint64_t count;
} asked;

enum { LEADS_TO_NULL, LEADS_TO_BLOCK };

static bool put_found(const struct scene *s, uint64_t address, struct blend_found found)
{
    if (found.refusal != 0)
        return false;
    print("find %lu ", address);
    if (found.kind == LEADS_TO_BLOCK)
        put_block(s, found.row);
    else
        print(found.kind == LEADS_TO_NULL ? "null\n" : "missing\n");
    return true;
}

/* By an index with about as many buckets as rows, and an odd number of them, as blend.h advises. */
static int find(const struct scene *s)
{
    uint64_t rows = s->read.rows, buckets = rows | 1;
    uint64_t *heads = table_for(buckets, 1), *links = table_for(rows, 1);
    bool holds = blend_index(s->rows, s->numbers, rows, buckets, heads, buckets, links, rows).refusal == 0;

    for (uint64_t i = 0; holds && i < asked.count; i++) {
        uint64_t address = asked.addresses[i];

        holds = put_found(s, address, blend_find(s->rows, s->numbers, rows, buckets, heads, buckets, links, rows, address));
    }
    free(heads);
    free(links);
    if (holds)
        return ALL_READ;
    complain(s->file.name, "an index over its blocks was refused");
    return BROKEN;
}

/* ---- The summary */

/* Blocks, and the bytes of their block headers and of their payloads. */
struct part {
    uint64_t blocks, headers, payloads;
};

/* Whether the first block begins where the header ends and each other one where the one before it ends, all with block headers of one length, and the end mark stands after
 * the last one, has its length, and is in the file. Then no byte is counted twice or left out, and none is counted as what it is not. */
static bool in_order(const struct scene *s, uint64_t header)
{
    uint64_t at = header, block_header = s->rows[PAYLOAD_AT] - s->rows[HEADER_AT];

    for (const uint64_t *row = s->rows; row < s->rows + BLEND_ROW * s->read.rows; row += BLEND_ROW) {
        if (row[HEADER_AT] != at || row[PAYLOAD_AT] - at != block_header || row[PAYLOAD_AT] > s->file.length)
            return false;
        if (row[PAYLOAD_LENGTH] > s->file.length - row[PAYLOAD_AT])
            return false;
        at = row[PAYLOAD_AT] + row[PAYLOAD_LENGTH];
    }
    return at <= s->read.end && s->read.end - at == BLEND_END_MARK && s->read.end <= s->file.length;
}

/* Puts the rows into the order of their codes, in place: the C library's own sorting would take memory. A heap, whose largest row goes to its end again and again. */
static void swap_rows(uint64_t *one, uint64_t *other)
{
    for (int i = 0; i < BLEND_ROW; i++) {
        uint64_t number = one[i];

        one[i] = other[i];
        other[i] = number;
    }
}

static void sink(uint64_t *rows, uint64_t count, uint64_t i)
{
    for (;;) {
        uint64_t largest = i;

        for (uint64_t below = 2 * i + 1; below <= 2 * i + 2 && below < count; below++)
            if (rows[BLEND_ROW * below + CODE] > rows[BLEND_ROW * largest + CODE])
                largest = below;
        if (largest == i)
            return;
        swap_rows(rows + BLEND_ROW * i, rows + BLEND_ROW * largest);
        i = largest;
    }
}

static void sort_rows(uint64_t *rows, uint64_t count)
{
    for (uint64_t i = count / 2; i-- > 0;)
        sink(rows, count, i);
    while (count-- > 1) {
        swap_rows(rows, rows + BLEND_ROW * count);
        sink(rows, count, 0);
    }
}

/* A code as text, where all of it shows, and as a number. The zeros at the end of a principal block's code are no part of the text. */
static void put_code(uint64_t code)
{
    char text[5] = {(char)(code >> 24), (char)(code >> 16), (char)(code >> 8), (char)code, 0};
    size_t length = 4;
    bool shows = true;

    while (length > 0 && text[length - 1] == 0)
        length--;
    for (size_t i = 0; i < length; i++)
        shows = shows && text[i] > ' ' && text[i] < 0x7f;
    print("%-11s%08lx ", shows ? text : "", code);
}

static void put_part(const struct part *p)
{
    print("%10lu%15lu%20lu%20lu\n", p->blocks, p->headers, p->payloads, p->headers + p->payloads);
}

static void put_bytes(const char *what, uint64_t bytes)
{
    print("%-20s%65lu\n", what, bytes);
}

/* A line for each code, and what they add up to. The rows are put into the order of their codes, and not back. */
static struct part put_blocks(struct scene *s)
{
    struct part all = {0, 0, 0};
    const uint64_t *row = s->rows, *end = s->rows + BLEND_ROW * s->read.rows;

    sort_rows(s->rows, s->read.rows);
    while (row < end) {
        struct part same = {0, 0, 0};
        uint64_t code = row[CODE];

        for (; row < end && row[CODE] == code; row += BLEND_ROW) {
            same.blocks++;
            same.headers += row[PAYLOAD_AT] - row[HEADER_AT];
            same.payloads += row[PAYLOAD_LENGTH];
        }
        put_code(code);
        put_part(&same);
        all.blocks += same.blocks;
        all.headers += same.headers;
        all.payloads += same.payloads;
    }
    return all;
}

static int summarise(struct scene *s)
{
    const struct blend_read *r = &s->read;
    uint64_t header = blend_header(s->file.bytes, s->file.length).length, after;
    struct part blocks;

    if (!in_order(s, header)) {
        complain(s->file.name, "not every byte is accounted for: its parts do not lie one after another");
        return BROKEN;
    }
    after = s->file.length - r->end;
    put_file_name(stdout, s->file.name);
    print(": %s edition, %lu-bit pointers, %s-endian, version %lu.%lu\n\n", edition_of(s), 8 * r->pointer_bytes, order_of(s), r->major, r->minor);
    print("%-20s%10s%15s%20s%20s\n", "", "blocks", "block headers", "payloads", "bytes");
    put_bytes("header", header);
    blocks = put_blocks(s);
    print("%-20s", "all blocks");
    put_part(&blocks);
    put_bytes("end mark", BLEND_END_MARK);
    put_bytes("after the end mark", after);
    put_bytes("total", header + blocks.headers + blocks.payloads + BLEND_END_MARK + after);
    print("\nEvery byte is accounted for: the parts lie one after another and add up to the size of the file, %zu bytes.\n", s->file.length);
    return ALL_READ;
}

/* ---- The catalogue */

struct catalogue {
    const uint8_t *payload;
    struct blend_catalogue counts;
    uint64_t *names, *types, *structs, *fields;
    uint64_t *dimensions; /* lent to blend_field, and made as long as a name needs it */
    size_t dimensions_length;
    uint64_t pointer_bytes;
};

/* What the fields of a struct take together. From a field on whose width cannot be told the bytes are not known. */
struct extent {
    uint64_t bytes;
    bool known, marked;
};

/* The catalogue of the last row. False where the library does not give it, though it counted it when the file was read. */
static bool read_catalogue(struct catalogue *c, const struct scene *s)
{
    const struct blend_read *r = &s->read;
    struct blend_view view = blend_view(s->file.bytes, s->file.length, s->rows, s->numbers, r->rows - 1);

    *c = (struct catalogue){.payload = s->file.bytes + view.at, .pointer_bytes = r->pointer_bytes};
    c->names = table_for(r->names, BLEND_NAME);
    c->types = table_for(r->types, BLEND_TYPE);
    c->structs = table_for(r->structs, BLEND_STRUCT);
    c->fields = table_for(r->fields, BLEND_FIELD);
    c->dimensions = table_for(0, 1);
    c->counts = blend_catalogue(c->payload, view.length, r->order, c->names, r->names * BLEND_NAME, c->types, r->types * BLEND_TYPE, c->structs,
                                r->structs * BLEND_STRUCT, c->fields, r->fields * BLEND_FIELD);
    return view.refusal == 0 && c->counts.refusal == 0;
}

static void drop_catalogue(struct catalogue *c)
{
    free(c->names);
    free(c->types);
    free(c->structs);
    free(c->fields);
    free(c->dimensions);
}

/* A type's row, or null where there is none of that number; names likewise. A number of one list is never looked up in the other. */
static const uint64_t *type_row(const struct catalogue *c, uint64_t number)
{
    return number < c->counts.types ? c->types + BLEND_TYPE * number : NULL;
}

static const uint64_t *name_row(const struct catalogue *c, uint64_t number)
{
    return number < c->counts.names ? c->names + BLEND_NAME * number : NULL;
}

/* After a space, these bytes. Those that would not show, or would break the line up otherwise, are written \xHH, and an empty text is "". */
static void put_text(const uint8_t *text, uint64_t length)
{
    print(length == 0 ? " \"\"" : " ");
    for (uint64_t i = 0; i < length; i++) {
        if (text[i] > ' ' && text[i] < 0x7f && text[i] != '"' && text[i] != '\\' && (text[i] != '?' || i > 0))
            put_byte(text[i]);
        else
            print("\\x%02x", text[i]);
    }
}

/* The bytes that a name's or type's row tells of. Where there is no row the number shows after a question mark. */
static void put_name(const struct catalogue *c, const uint64_t *row, uint64_t number)
{
    if (row == NULL)
        print(" ?%lu", number);
    else
        put_text(c->payload + row[TEXT_AT], row[TEXT_LENGTH]);
}

/* After a space, the number, or a dash where it is not known. */
static void put_known(bool known, uint64_t number)
{
    if (known)
        print(" %lu", number);
    else
        print(" -");
}

/* What the name of a field says. */
static struct blend_field told_by(struct catalogue *c, const uint64_t *name)
{
    const uint8_t *text = c->payload + name[TEXT_AT];
    struct blend_field f = blend_field(text, name[TEXT_LENGTH], c->dimensions, c->dimensions_length);

    if (f.refusal == DIMENSIONS_SHORT) {
        c->dimensions = room_for(c->dimensions, f.needed, sizeof *c->dimensions);
        c->dimensions_length = f.needed;
        f = blend_field(text, name[TEXT_LENGTH], c->dimensions, c->dimensions_length);
    }
    return f;
}

/* How wide a field of that type and name is, or the refusal of its name or of its width. */
static struct blend_value width_of(struct catalogue *c, const uint64_t *type, const uint64_t *name)
{
    struct blend_field f = told_by(c, name);

    return f.refusal != 0 ? (struct blend_value){f.refusal, 0} : blend_width(f, type[TYPE_SIZE], c->pointer_bytes);
}

/* Why a field of that name has no width; where something is left of the name, with that. */
static void put_refusal(struct catalogue *c, uint64_t refusal, const uint64_t *name)
{
    print("problem: this field is refused %lu: %s", refusal, refusal_words(refusal));
    if (refusal == NAME_NOT_FULLY_READ) {
        struct blend_field f = told_by(c, name);

        print("; left over is");
        put_text(c->payload + name[TEXT_AT] + f.rest_at, f.rest_length);
    }
    print("\n");
}

static void put_field(struct catalogue *c, struct extent *e, const uint64_t *field)
{
    const uint64_t *type = type_row(c, field[FIELD_TYPE]), *name = name_row(c, field[FIELD_NAME]);
    bool found = type != NULL && name != NULL;
    struct blend_value width = found ? width_of(c, type, name) : (struct blend_value){0, 0};
    bool known = found && width.refusal == 0, fits = width.value <= UINT64_MAX - e->bytes;

    print("field");
    put_known(e->known, e->bytes);
    put_known(known, width.value);
    put_name(c, type, field[FIELD_TYPE]);
    put_name(c, name, field[FIELD_NAME]);
    print("\n");
    if (type == NULL)
        print("problem: the type of this field is past the list of types\n");
    if (name == NULL)
        print("problem: the name of this field is past the list of names\n");
    if (width.refusal != 0)
        put_refusal(c, width.refusal, name);
    if (e->known && known && !fits)
        print("problem: this field ends past 2^64-1\n");
    if (e->known && !(known && fits))
        print("problem: the later offsets of this struct are not known, nor how many bytes its fields take\n");
    e->marked = e->marked || !known || (e->known && !fits);
    e->known = e->known && known && fits;
    e->bytes += width.value;
}

/* Whether the struct is marked. */
static bool put_struct(struct catalogue *c, uint64_t number)
{
    const uint64_t *row = c->structs + BLEND_STRUCT * number, *type = type_row(c, row[STRUCT_TYPE]);
    struct extent e = {0, true, type == NULL};

    print("struct %lu", number);
    put_known(type != NULL, type != NULL ? type[TYPE_SIZE] : 0);
    put_name(c, type, row[STRUCT_TYPE]);
    print("\n");
    if (type == NULL)
        print("problem: the type of this struct is past the list of types\n");
    for (uint64_t i = 0; i < row[STRUCT_FIELDS]; i++)
        put_field(c, &e, c->fields + BLEND_FIELD * (row[STRUCT_FIRST] + i));
    if (type != NULL && e.known && e.bytes != type[TYPE_SIZE]) {
        print("problem: the fields of this struct take %lu bytes, which is not its size\n", e.bytes);
        e.marked = true;
    }
    return e.marked;
}

static int catalogue(const struct scene *s)
{
    struct catalogue c;
    uint64_t marked = 0;

    if (!read_catalogue(&c, s)) {
        complain(s->file.name, "its catalogue was counted, and then could not be read");
        drop_catalogue(&c);
        return BROKEN;
    }
    print("types %lu\n", c.counts.types);
    for (uint64_t i = 0; i < c.counts.types; i++) {
        print("type %lu %lu", i, type_row(&c, i)[TYPE_SIZE]);
        put_name(&c, type_row(&c, i), i);
        print("\n");
    }
    print("structs %lu\n", c.counts.structs);
    for (uint64_t i = 0; i < c.counts.structs; i++)
        marked += put_struct(&c, i);
    print("problems %lu\n", marked);
    drop_catalogue(&c);
    return ALL_READ;
}

/* ---- The command line */

static const char help[] =
    "usage: blendscan [--summary | --catalogue | --find ADDRESS ...] [FILE ...]\n"
    "\n"
    "Shows what .blend files have in them. Without a FILE, or where it is -, standard\n"
    "input is read.\n"
    "\n"
    "  (no option)   a line for the header: edition, bits of a pointer, byte order,\n"
    "                version; one for each block: number, code, address, index, count,\n"
    "                offset of the block header, offset and length of the payload; one\n"
    "                for the catalogue: names, types, structs, fields; and one for the\n"
    "                offset after the end mark\n"
    "  --summary     where every byte of the file belongs: the header, the blocks by\n"
    "                code, the end mark, what follows it\n"
    "  --catalogue   the types with their number and size, and the structs with their\n"
    "                number and size and, for each field, its offset, width, type and\n"
    "                name; a dash stands for what is not known, such as the width of a\n"
    "                field whose name is not fully read and the offsets after it. A line\n"
    "                that begins with `problem:` tells what is wrong with what stands\n"
    "                above it; the last line counts the structs with one\n"
    "  --find ADDRESS\n"
    "                what a stored address leads to, decimal or after 0x: the line of the\n"
    "                first block of the scene's own things or DATA block that was saved at\n"
    "                it; or `null`, for 0, or `missing`. May be given several times\n"
    "  --help        this page\n"
    "  --            what follows are files, whatever they begin with\n"
    "\n"
    "A file is a header, blocks, and the end mark ENDB. A block is a block header, with\n"
    "a code that says what it is, and a payload, the data itself. Codes of two letters\n"
    "are the scene's own things (OB objects, LA lamps, ME meshes ..), each followed by\n"
    "DATA blocks with more of their data; GLOB, REND and TEST are about the whole file;\n"
    "DNA1 is the catalogue, which says of what fields the data consist. The edition is\n"
    "legacy or, from Blender 5 on, new. Numbers are decimal, codes hexadecimal, lengths\n"
    "and offsets in bytes.\n"
    "\n"
    "A file that is refused gives the line `refused N`, and the reason on standard\n"
    "error. 16 is a file that is cut short, 17 one in which a mark is wrong: after these\n"
    "stands the offset of what was being read, and the reason says what that was. An\n"
    "upload that was broken off is 16, or 1 where hardly anything came. Where there are\n"
    "several files, a line `file NAME` stands before each.\n"
    "\n"
    "A named file is not copied, so nobody may write to it meanwhile: where that is seen\n"
    "it is told. Standard input is copied: blendscan <FILE is for files that others use.\n"
    "\n"
    "Exit status: 0 all files were read; 1 one was refused; 2 wrong usage, or a file\n"
    "cannot be had or was changed meanwhile; 3 anything else: output that cannot be\n"
    "written, too little memory. Of several the highest.\n";

static int scan(enum mode mode, const char *name)
{
    struct scene s;
    int status;

    name_scanned(name);
    if (!take_file(&s.file, name))
        return NOT_HAD;
    read_scene(&s);
    if (!kept(&s.file))
        status = NOT_HAD;
    else if (s.read.refusal != 0)
        status = tell_refusal(&s);
    else if (mode == SUMMARY)
        status = summarise(&s);
    else if (mode == CATALOGUE)
        status = catalogue(&s);
    else if (mode == FINDING)
        status = find(&s);
    else
        status = list(&s);
    settle();
    if (status < NOT_HAD && !kept(&s.file))
        status = NOT_HAD;
    free(s.rows);
    drop_file(&s.file);
    return status;
}

static int scan_all(enum mode mode, char **names, int count)
{
    int status = ALL_READ;

    if (count == 0)
        return scan(mode, "-");
    for (int i = 0; i < count; i++) {
        int one;

        if (count > 1) {
            print("file ");
            put_file_name(stdout, names[i]);
            print("\n");
        }
        one = scan(mode, names[i]);
        if (one > status)
            status = one;
    }
    return status;
}

/* The mode that an option asks for; LISTING where there is no such option. */
static enum mode mode_of(const char *word)
{
    if (strcmp(word, "--summary") == 0)
        return SUMMARY;
    if (strcmp(word, "--find") == 0)
        return FINDING;
    return strcmp(word, "--catalogue") == 0 ? CATALOGUE : LISTING;
}

/* The number that a digit stands for, or 16. */
static uint64_t digit_of(char byte)
{
    if (byte >= '0' && byte <= '9')
        return (uint64_t)(byte - '0');
    if (byte >= 'a' && byte <= 'f')
        return (uint64_t)(byte - 'a' + 10);
    return byte >= 'A' && byte <= 'F' ? (uint64_t)(byte - 'A' + 10) : 16;
}

/* Takes an address, decimal or after 0x. False, and the reason is told, for a word that is none. */
static bool ask_for(const char *word)
{
    bool hex = word != NULL && word[0] == '0' && (word[1] == 'x' || word[1] == 'X');
    uint64_t base = hex ? 16 : 10, number = 0;
    const char *at = hex ? word + 2 : word;
    bool sound = at != NULL && *at != 0;

    for (; sound && *at != 0; at++) {
        uint64_t digit = digit_of(*at);

        sound = digit < base && number <= (UINT64_MAX - digit) / base;
        number = sound ? number * base + digit : 0;
    }
    if (!sound) {
        complain(word == NULL ? "--find" : word, "--find needs an address: a number of at most 2^64-1, decimal or after 0x");
        return false;
    }
    asked.addresses = room_for(asked.addresses, asked.count, sizeof *asked.addresses);
    asked.addresses[asked.count++] = number;
    return true;
}

static bool set_mode(enum mode *mode, const char *word)
{
    enum mode wanted = mode_of(word);

    if (wanted == LISTING) {
        complain(word, "there is no such option; --help tells which there are");
        return false;
    }
    if (*mode != LISTING && *mode != wanted) {
        complain(word, "it does not go with the option before it; --help tells more");
        return false;
    }
    *mode = wanted;
    return true;
}

/* Options may stand anywhere; the names are gathered at the start of the list. */
int main(int argc, char **argv)
{
    enum mode mode = LISTING;
    bool names_only = false;
    int names = 0, status;

    setvbuf(stdout, output, _IOFBF, sizeof output);
    signal(SIGPIPE, SIG_IGN);
    signal(SIGXFSZ, SIG_IGN);
    signal(SIGBUS, lost);
    signal(SIGSEGV, lost);
    for (int i = 1; i < argc; i++) {
        if (names_only || argv[i][0] != '-' || argv[i][1] == 0) {
            argv[names++] = argv[i];
        } else if (strcmp(argv[i], "--") == 0) {
            names_only = true;
        } else if (strcmp(argv[i], "--help") == 0) {
            print("%s", help);
            settle();
            return ALL_READ;
        } else if (!set_mode(&mode, argv[i]) || (strcmp(argv[i], "--find") == 0 && !ask_for(argv[++i]))) {
            return NOT_HAD;
        }
    }
    status = scan_all(mode, argv, names);
    settle();
    return status;
}
