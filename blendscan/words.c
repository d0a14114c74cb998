/* Why a file is cut short, or has a wrong mark, in words.
 *
 * The library says that it is so, and where. What was being read there is found by going over the reads of the header, or of the block that the library's walk stops
 * in, one after another, up to the first that fails; the numbers among them are the library's answers. Where that is not at the place that the library told, no
 * more is said than it told. */
#include "words.h"

#include "blend.h"

/* After "BLENDER". */
enum { HEADER_FROM = 7 };

/* Where the reads are: in the file's header, in a block, or in the payload of one as a catalogue. */
enum part { IN_HEADER, IN_BLOCK, IN_CATALOGUE };

/* Reads of the file, one after another. */
struct walk {
    const uint8_t *file;
    uint64_t at, end; /* the next read, and where the file ends, or the payload that is a catalogue */
    uint64_t order;
    enum part part;
    uint64_t block, block_at; /* the block's number, and where it begins */
    uint64_t refusal; /* 0, or why the read at `at` fails */
    /* The last read: in its words # is the next of the numbers, and @ how many bytes it wants. */
    const char *what;
    uint64_t wants, numbers[4];
    const char *mark; /* what was expected, where that read is a wrong mark */
};

/* ---- Reads. Each answers false where it fails, and then the walk stands at it. */

static bool takes(struct walk *w, uint64_t wants, const char *what)
{
    w->what = what;
    w->wants = wants;
    if (wants > w->end - w->at) {
        w->refusal = CUT_SHORT;
        return false;
    }
    w->at += wants;
    return true;
}

static bool takes_number(struct walk *w, uint64_t width, const char *what, uint64_t *number)
{
    const uint8_t *from = w->file + w->at;

    if (!takes(w, width, what))
        return false;
    *number = (width == 2 ? blend_u16 : width == 4 ? blend_u32 : blend_u64)(from, width, w->order).value;
    return true;
}

/* A string with the zero that ends it. */
static bool takes_string(struct walk *w, const char *what)
{
    uint64_t zero = w->at;

    while (zero < w->end && w->file[zero] != 0)
        zero++;
    return takes(w, zero - w->at + 1, what);
}

static bool differs(struct walk *w, const char *mark)
{
    w->at -= w->wants;
    w->mark = mark;
    w->refusal = WRONG_MARK;
    return false;
}

/* A mark of four letters. */
static bool takes_mark(struct walk *w, const char *mark, const char *what)
{
    return takes(w, 4, what) && (memcmp(w->file + w->at - 4, mark, 4) == 0 || differs(w, mark));
}

/* A mark of one letter, which is the first or the last of these words. */
static bool takes_either(struct walk *w, const char *words, const char *what)
{
    return takes(w, 1, what) && (w->file[w->at - 1] == words[0] || w->file[w->at - 1] == words[strlen(words) - 1] || differs(w, words));
}

/* ---- The header */

static const char pointer_mark[] = "the pointer mark", pointer_marks[] = "_ or -", order_mark[] = "the order mark", order_marks[] = "v or V";
static const char version[] = "the version, @,";

static bool takes_legacy(struct walk *w)
{
    return takes(w, 1, pointer_mark) && takes_either(w, order_marks, order_mark) && takes(w, 3, version);
}

/* Where the file ends after "BLENDER" it may have been of either edition. */
static bool takes_new(struct walk *w)
{
    static const char pair[] = "a pair of bytes", either[] = "the pointer mark, or the pair of bytes before it,";

    return takes(w, 2, w->at == w->end ? either : pair) && takes_either(w, pointer_marks, pointer_mark) && takes(w, 2, pair)
        && takes_either(w, order_marks, order_mark) && takes(w, 4, version);
}

static bool takes_header(struct walk *w)
{
    if (w->end < HEADER_FROM)
        return false;
    w->at = HEADER_FROM;
    return w->at < w->end && (w->file[w->at] == '_' || w->file[w->at] == '-') ? takes_legacy(w) : takes_new(w);
}

/* ---- Blocks */

static const char size_words[] = "the size in a block header, @,", index_words[] = "the index in a block header, @,";
static const char address_words[] = "the address in a block header, @,", count_words[] = "the count in a block header, @,";

static bool takes_block_header(struct walk *w, const struct blend_header *h, uint64_t *size)
{
    if (!takes(w, 4, "the code of a block, or the end mark ENDB,"))
        return false;
    if (h->edition == 0) {
        w->order = h->order;
        return takes_number(w, 4, size_words, size) && takes(w, h->pointer_bytes, address_words) && takes(w, 4, index_words) && takes(w, 4, count_words);
    }
    w->order = 0; /* whatever the file's is */
    return takes(w, 4, index_words) && takes(w, h->pointer_bytes, address_words) && takes_number(w, 8, size_words, size) && takes(w, 8, count_words);
}

/* ---- The catalogue */

/* A list of strings: the words for its reads. */
struct list {
    const char *letters, *mark, *count, *string, *padding;
};

static bool takes_padding(struct walk *w, uint64_t from, const char *what)
{
    return takes(w, (4 - (w->at - from) % 4) % 4, what);
}

static bool takes_list(struct walk *w, const struct list *l, uint64_t *count)
{
    uint64_t from;

    if (!takes_mark(w, l->letters, l->mark) || !takes_number(w, 4, l->count, count))
        return false;
    from = w->at;
    w->numbers[1] = *count;
    for (uint64_t i = 0; i < *count; i++) {
        w->numbers[0] = i;
        if (!takes_string(w, l->string))
            return false;
    }
    return takes_padding(w, from, l->padding);
}

static bool takes_sizes(struct walk *w, uint64_t types)
{
    uint64_t from;

    if (!takes_mark(w, "TLEN", "the mark TLEN"))
        return false;
    from = w->at;
    w->numbers[1] = types;
    for (uint64_t i = 0; i < types; i++) {
        w->numbers[0] = i;
        if (!takes(w, 2, "the size of type # (of #), @,"))
            return false;
    }
    return takes_padding(w, from, "the padding after the sizes, @,");
}

/* The struct whose number is the first of the numbers; the second is how many there are. */
static bool takes_struct(struct walk *w)
{
    uint64_t fields, number = w->numbers[0], structs = w->numbers[1];

    if (!takes(w, 2, "the type of struct # (of #), @,") || !takes_number(w, 2, "the field count of struct # (of #), @,", &fields))
        return false;
    w->numbers[1] = fields;
    w->numbers[2] = number;
    w->numbers[3] = structs;
    for (uint64_t i = 0; i < fields; i++) {
        w->numbers[0] = i;
        if (!takes(w, 2, "the type of field # (of #) in struct # (of #), @,") || !takes(w, 2, "the name of field # (of #) in struct # (of #), @,"))
            return false;
    }
    return true;
}

static bool takes_structs(struct walk *w)
{
    uint64_t structs;

    if (!takes_mark(w, "STRC", "the mark STRC") || !takes_number(w, 4, "the count of structs, @,", &structs))
        return false;
    for (uint64_t i = 0; i < structs; i++) {
        w->numbers[0] = i;
        w->numbers[1] = structs;
        if (!takes_struct(w))
            return false;
    }
    return true;
}

static bool takes_catalogue(struct walk *w)
{
    static const struct list name_list = {
        "NAME", "the mark NAME", "the count of names, @,", "name # (of #), with the zero that ends it,", "the padding after the names, @,",
    };
    static const struct list type_list = {
        "TYPE", "the mark TYPE", "the count of types, @,", "type # (of #), with the zero that ends it,", "the padding after the types, @,",
    };
    uint64_t names, types;

    return takes_mark(w, "SDNA", "the mark SDNA") && takes_list(w, &name_list, &names) && takes_list(w, &type_list, &types) && takes_sizes(w, types)
        && takes_structs(w);
}

/* A block, and its payload as a catalogue: a block that is none is not refused by 16 or 17 once its payload is there. */
static bool takes_block(struct walk *w, const struct blend_header *h)
{
    uint64_t size;

    if (!takes_block_header(w, h, &size) || !takes(w, size, "a payload of @"))
        return false;
    w->part = IN_CATALOGUE;
    w->order = h->order;
    w->end = w->at;
    w->at -= size;
    return takes_catalogue(w);
}

/* ---- From the start of the file to the read that fails */

/* The library's walk, from block to block up to the step that is refused. False where that is another refusal. */
static bool steps_to(struct walk *w, uint64_t refusal, uint64_t fault_at)
{
    struct blend_step step = blend_step(w->file, w->end, 0, 0);

    while (step.refusal == 0 && step.kind == 0 && step.next_at > w->block_at && step.next_at <= w->end) {
        w->block++;
        w->block_at = step.next_at;
        step = blend_step(w->file, w->end, step.next_at, step.next_dna);
    }
    return step.refusal == refusal && step.fault_at == fault_at;
}

/* Whether the walk comes to the read that the library refused, and stands at it. */
static bool walks_to(struct walk *w, uint64_t refusal, uint64_t fault_at)
{
    struct blend_header h = blend_header(w->file, w->end);

    if (h.refusal != 0) {
        w->part = IN_HEADER;
        takes_header(w);
    } else {
        w->part = IN_BLOCK;
        w->block_at = h.length;
        if (!steps_to(w, refusal, fault_at))
            return false;
        w->at = w->block_at;
        takes_block(w, &h);
    }
    return w->refusal == refusal && w->at == fault_at;
}

/* ---- Words */

void put_grouped(FILE *to, uint64_t number)
{
    if (number < 1000) {
        fprintf(to, "%lu", number);
        return;
    }
    put_grouped(to, number / 1000);
    fprintf(to, ",%03lu", number % 1000);
}

static void put_counted(FILE *to, uint64_t count, const char *what)
{
    put_grouped(to, count);
    fprintf(to, count == 1 ? " %s" : " %ss", what);
}

static void put_what(FILE *to, const struct walk *w)
{
    const uint64_t *number = w->numbers;

    for (const char *letter = w->what; *letter != 0; letter++) {
        if (*letter == '#')
            put_grouped(to, *number++);
        else if (*letter == '@')
            put_counted(to, w->wants, "byte");
        else
            fputc(*letter, to);
    }
}

static void put_where(FILE *to, const struct walk *w)
{
    if (w->part == IN_HEADER) {
        fprintf(to, "; in the header");
    } else if (w->at == w->block_at) {
        fprintf(to, w->block == 0 ? "; after the header" : "; after ");
        if (w->block > 0)
            put_counted(to, w->block, "block");
    } else {
        fprintf(to, w->part == IN_CATALOGUE ? "; in the catalogue, block " : "; in block ");
        put_grouped(to, w->block);
        fprintf(to, ", which begins at byte ");
        put_grouped(to, w->block_at);
    }
}

static void put_cut(FILE *to, const struct walk *w)
{
    fprintf(to, "cut short: ");
    put_what(to, w);
    fprintf(to, " was to begin at byte ");
    put_grouped(to, w->at);
    fprintf(to, w->part == IN_CATALOGUE ? ", and the payload of this block ends at " : ", and the file ends at ");
    put_grouped(to, w->end);
    put_where(to, w);
}

static void put_wrong_mark(FILE *to, const struct walk *w)
{
    fprintf(to, "wrong mark at byte ");
    put_grouped(to, w->at);
    fprintf(to, ": expected %s, found", w->mark);
    for (uint64_t i = 0; i < w->wants; i++)
        fprintf(to, " %02x", w->file[w->at + i]);
    put_where(to, w);
}

void put_fault(FILE *to, const uint8_t *file, size_t length, uint64_t refusal, uint64_t fault_at)
{
    struct walk w = {.file = file, .end = length};

    if (walks_to(&w, refusal, fault_at)) {
        (refusal == CUT_SHORT ? put_cut : put_wrong_mark)(to, &w);
        return;
    }
    fprintf(to, refusal == CUT_SHORT ? "cut short: not all is there of what was to begin at byte " : "wrong mark at byte ");
    put_grouped(to, fault_at);
}
