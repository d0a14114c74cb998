/* dim: sets how bright the lamp of a scene is. An example of changing a scene by the library for other languages, with no other knowledge of .blend files than blend.h.
 *
 * usage: dim ENERGY <FILE >FILE
 *
 * It reads a .blend file from standard input, finds the first lamp, asks the file's own catalogue where a lamp's energy stands, changes it in a copy of the lamp's payload and
 * writes the scene to standard output. All else is copied as it is; what follows the end mark is left out. The file that comes out is of the edition that went in, so a New one
 * has to have 64-bit pointers and the little order.
 *
 * Exit 1: the file is not read, it has no lamp with an energy, or it is not written; standard error says why. Exit 2: ENERGY is no number. */
#define PROGRAM "dim"
#include "whole.h"

enum { LAMP = 0x4c410000 }; /* "LA" and two zeros */

/* Where the numbers of a row stand in the tables: of a block, of a name or type, of a struct, of a field. */
enum { CODE, ADDRESS, INDEX, COUNT, HEADER_AT, PAYLOAD_AT, PAYLOAD_LENGTH };
enum { TEXT_AT, TEXT_LENGTH, TYPE_SIZE };
enum { STRUCT_TYPE, STRUCT_FIRST, STRUCT_FIELDS };
enum { FIELD_TYPE, FIELD_NAME };

struct catalogue {
    const uint8_t *payload;
    struct blend_catalogue counts;
    uint64_t *names, *types, *structs, *fields;
};

/* The catalogue of the last block. It was counted when the file was read, so it is not refused. */
static struct catalogue catalogue_of(const struct whole *w)
{
    const struct blend_read *r = &w->read;
    const uint64_t *dna = w->rows + (r->rows - 1) * BLEND_ROW;
    struct catalogue c = {.payload = w->bytes + dna[PAYLOAD_AT]};

    c.names = room_for(NULL, r->names, BLEND_NAME * sizeof *c.names);
    c.types = room_for(NULL, r->types, BLEND_TYPE * sizeof *c.types);
    c.structs = room_for(NULL, r->structs, BLEND_STRUCT * sizeof *c.structs);
    c.fields = room_for(NULL, r->fields, BLEND_FIELD * sizeof *c.fields);
    c.counts = blend_catalogue(c.payload, dna[PAYLOAD_LENGTH], r->order, c.names, r->names * BLEND_NAME, c.types, r->types * BLEND_TYPE, c.structs,
                               r->structs * BLEND_STRUCT, c.fields, r->fields * BLEND_FIELD);
    return c;
}

static void drop_catalogue(struct catalogue *c)
{
    free(c->names);
    free(c->types);
    free(c->structs);
    free(c->fields);
}

static bool is(const uint8_t *bytes, uint64_t length, const char *text)
{
    return length == strlen(text) && memcmp(bytes, text, length) == 0;
}

static bool type_is(const struct catalogue *c, uint64_t type, const char *text)
{
    const uint64_t *row = c->types + type * BLEND_TYPE;

    return is(c->payload + row[TEXT_AT], row[TEXT_LENGTH], text);
}

/* Where a float of that name stands in a struct: the widths of the fields before it. */
static uint64_t float_in(const struct catalogue *c, uint64_t number, const char *text, uint64_t pointer_bytes)
{
    const uint64_t *of = c->structs + number * BLEND_STRUCT, *field = c->fields + of[STRUCT_FIRST] * BLEND_FIELD;
    uint64_t at = 0;

    for (uint64_t i = 0; i < of[STRUCT_FIELDS]; i++, field += BLEND_FIELD) {
        const uint64_t *name = c->names + field[FIELD_NAME] * BLEND_NAME;
        uint64_t dimensions[16];
        struct blend_field told;
        struct blend_value width;

        if (field[FIELD_TYPE] >= c->counts.types || field[FIELD_NAME] >= c->counts.names)
            fail("the lamp has a field of an unknown type or name");
        told = blend_field(c->payload + name[TEXT_AT], name[TEXT_LENGTH], dimensions, 16);
        width = blend_width(told, c->types[field[FIELD_TYPE] * BLEND_TYPE + TYPE_SIZE], pointer_bytes);
        if (width.refusal != 0)
            fail("the lamp has a field of an unknown width");
        if (told.kind == 0 && is(c->payload + name[TEXT_AT] + told.name_at, told.name_length, text) && type_is(c, field[FIELD_TYPE], "float") && width.value == 4)
            return at;
        if (width.value > UINT64_MAX - at)
            fail("the lamp's fields are too long");
        at += width.value;
    }
    fail("the lamp has no %s that is a float", text);
}

/* The row of the first lamp. */
static uint64_t *lamp_in(const struct whole *w)
{
    for (uint64_t *row = w->rows; row < w->rows + w->read.rows * BLEND_ROW; row += BLEND_ROW)
        if (row[CODE] == LAMP)
            return row;
    fail("there is no lamp");
}

/* A float's four bytes in the file's order. */
static void put_float(uint8_t *to, float value, uint64_t order)
{
    unsigned bits;

    memcpy(&bits, &value, sizeof bits);
    for (size_t i = 0; i < 4; i++)
        to[order == 0 ? i : 3 - i] = (uint8_t)(bits >> 8 * i);
}

int main(int count, char **words)
{
    char *rest = NULL;
    float energy = count == 2 ? strtof(words[1], &rest) : 0;
    struct whole scene;
    struct catalogue c;
    uint64_t *lamp, at, changed;

    if (count != 2 || rest == words[1] || *rest != 0) {
        fprintf(stderr, "usage: dim ENERGY <FILE >FILE\n");
        return 2;
    }
    scene = whole_input();
    lamp = lamp_in(&scene);
    c = catalogue_of(&scene);
    if (lamp[INDEX] >= c.counts.structs || c.structs[lamp[INDEX] * BLEND_STRUCT + STRUCT_TYPE] >= c.counts.types
        || !type_is(&c, c.structs[lamp[INDEX] * BLEND_STRUCT + STRUCT_TYPE], "Lamp"))
        fail("the lamp's struct is not Lamp");
    at = float_in(&c, lamp[INDEX], "energy", scene.read.pointer_bytes);
    drop_catalogue(&c);
    if (at > lamp[PAYLOAD_LENGTH] || lamp[PAYLOAD_LENGTH] - at < 4)
        fail("the lamp's payload ends before its energy does");
    /* The source is the file and, after it, the payload that is to be in the place of the lamp's. */
    changed = scene.length;
    scene.bytes = room_for(scene.bytes, scene.length + lamp[PAYLOAD_LENGTH], 1);
    memcpy(scene.bytes + changed, scene.bytes + lamp[PAYLOAD_AT], lamp[PAYLOAD_LENGTH]);
    put_float(scene.bytes + changed + at, energy, scene.read.order);
    lamp[PAYLOAD_AT] = changed;
    whole_output(&scene.read, scene.rows, scene.bytes, scene.length + lamp[PAYLOAD_LENGTH]);
    return 0;
}
