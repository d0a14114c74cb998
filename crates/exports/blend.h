/* Reading and writing .blend files: the functions of libexports.a (x86-64-v2 Linux, the C calling convention).
 *
 * A slice goes in as a pointer and the number of its elements, which must be there. For any bytes in them, and any other numbers, every function returns; none keeps a
 * pointer, allocates, or writes anywhere but in the tables and the output that it is lent to write in, which may be uninitialised. No pointer may be null, also not that
 * of a slice of no elements. What is written in must not overlap anything else that a call is lent, unless it has no elements; tables are of uint64_t, aligned as such. Nothing is
 * shared between calls, so they may be made from any thread. While a call runs nobody else may change what it is lent, or nothing is promised, also not where it
 * reads and writes: a file that is mapped and that another program writes to is best copied first.
 *
 * In every answer `refusal` is 0, or the number of a refusal. On a refusal the tables and the output hold what they held, and every number of the answer that the refusal does not
 * carry is 0 and says nothing (but a step's next place): look at `refusal` first. On an answer what a refusal carries (`fault_at`, `needed` and `table`; of an
 * index `buckets` and `rows`; of writing `row`) is 0, and a table's numbers past those used are as they were.
 *
 *    1  the file does not begin with "BLENDER": it is compressed, or no .blend file
 *    3  a block whose address is 0
 *    4  a principal block (two bytes and then two zeros for a code, as objects have it) whose count is not 1
 *    5  a block whose code is none of REND, TEST, GLOB, DATA, DNA1 and those of principal blocks
 *    6  the last block is not DNA1, or there is none
 *    7  the row table is too short; `needed` has the rows that the file needs
 *    8  a catalogue table is too short; `table` says which (1 names, 2 types, 3 structs, 4 fields), `needed` the rows that it needs
 *    9  a dimension that is no number of at most 2^64-1
 *   10  a product over 2^64-1, or a file to be written that is longer
 *   11  the table of dimensions is too short; `needed` has how many there are
 *   12  a value's slice is too short
 *   13  a row, or the bytes that it tells of, or a walk's place, are not there
 *   14  no bucket, or a table of an index is too short; `buckets` and `rows` have the numbers that heads and links need
 *   15  a field's name is not fully read, so that it has no width: something is left over after its declarator, or it was refused
 *   16  cut short: fewer bytes are left than the next read wants, or no zero ends a string; `fault_at` has the offset of that read's first byte. In a DNA1's
 *       catalogue the bytes end where its payload does
 *   17  wrong mark: enough bytes are left, and they are not the mark that has to stand there; `fault_at` has the offset of the mark's first byte
 *   18  the output is too short; `needed` has the bytes that the file needs
 *   19  a number, mark or version that the form to be written has no room for; `row` has the first row that it is in, the row count where it is in the header
 *
 * There is no 2: what was malformed is 16 or 17. `fault_at` is an offset in the file, also where the fault is in a DNA1's catalogue, and in the payload where
 * blend_catalogue reads a payload by itself or blend_write looks at one. One mark, code, number, string, padding, payload, pair of unchecked header bytes or version is one read. A file that
 * would be read, but ends before the end of its end mark, is always 16, at an offset of at most its length, or 1 where fewer than 7 bytes are left: a 17 is no cut
 * upload. A 16 need not be one: a size or a count that is too large asks for bytes that are not there, too.
 *
 * The earliest fault is reported; 7, 8 and 11 come only when all else reads (but 11 before 10).
 *
 * Tables: a row takes 7 numbers in the row table, 3 in types and structs, 2 in names and fields (below); a table's rows are its length divided by that, rounded
 * down. `needed` counts rows (7, 8) or dimensions (11), a table's length numbers. Every block takes BLEND_BLOCK_LEAST bytes or more, so a row table with a row for each
 * BLEND_BLOCK_LEAST bytes of the file is never too short. To read a file of any size without so large a table:
 *
 *     uint64_t none[1];
 *     struct blend_read r = blend_read(file, length, none, 0);
 *     if (r.refusal == 7) {
 *         numbers = r.needed * BLEND_ROW;
 *         table = malloc(numbers * sizeof *table);
 *         r = blend_read(file, length, table, numbers);
 *     }
 *
 * r.rows - 1 is then the row of the last DNA1, and r.names, r.types, r.structs and r.fields are the rows that its catalogue's tables need.
 *
 * Byte orders are 0 for little and 1 for big; where one is asked for, any number but 0 is big.
 */
#ifndef BLEND_H
#define BLEND_H

#include <stddef.h>
#include <stdint.h>

#ifdef __cplusplus
extern "C" {
#endif

#define BLEND_BLOCK_LEAST 20 /* the bytes of the shortest block: a header of 20 bytes, and no payload */
#define BLEND_END_MARK 4 /* the bytes of the end mark */

#define BLEND_ROW 7 /* numbers to a row */
#define BLEND_NAME 2
#define BLEND_TYPE 3
#define BLEND_STRUCT 3
#define BLEND_FIELD 2

/* The header: edition 0 legacy, 1 new; 4 or 8 bytes to a pointer; the byte order; the version; and the header's length, 12 or 17. Refusals 1, 16, 17. */
struct blend_header {
    uint64_t refusal, fault_at, edition, pointer_bytes, order, major, minor, length;
};
struct blend_header blend_header(const uint8_t *file, size_t length);

/* The whole file: what its header says, how many rows (one to a block, as they stand in the file), the offset after the end mark, and the counts of the last DNA1's
 * catalogue. Into the table go for each row: the code (first byte most significant), the address, the index, the count, the offset of the block header, the
 * offset of the payload, the length of the payload. Offsets are the file's. Refusals 1, 3 to 7, 16, 17. */
struct blend_read {
    uint64_t refusal, fault_at, needed, edition, pointer_bytes, order, major, minor, rows, end, names, types, structs, fields;
};
struct blend_read blend_read(const uint8_t *file, size_t length, uint64_t *table, size_t numbers);

/* One step of a walk from block to block, without a table. A place goes in: an offset, and whether the block before it is a DNA1 (0 no, any other number yes); a
 * walk starts at 0 and 0, and any offset up to the header's end stands for the first block, with no block before it. Out comes kind 0, a block, with what its row would
 * hold (`length` is the payload's) and `end` 0, or kind 1, the end, with the offset after the end mark in `end` and the row's numbers 0; and the next place, next_at and
 * next_dna (0 or 1). On a refusal and at the end the next place is the one that went in, so the same step answers the same again.
 * From the start the steps give the rows of blend_read one after another, and then its end, or its refusal with the same fault_at (7 aside). So the block that a fault is
 * in begins at the place of the step that was refused, or, where that place was 0 and blend_header is not refused, at the header's end (blend_header has its length).
 * Refusals 13, where the place lies past
 * the file's end, and then those of blend_read but 7. */
struct blend_step {
    uint64_t refusal, fault_at, kind, code, address, index, count, at, payload, length, end, next_at, next_dna;
};
struct blend_step blend_step(const uint8_t *file, size_t file_length, size_t at, uint64_t dna);

/* The catalogue of a DNA1's payload (by blend_view), in the file's byte order. Into the tables go: of a name its offset in the payload and its length; of a type the same
 * of its name, and its size; of a struct its type's number, its first row in the fields, and how many fields it has; of a field its type's number and its
 * name's number. The numbers of types and names are as the file has them: they may lie past the end of their list. 8 names the first of the four tables that is
 * too short, so an earlier DNA1 may take four calls to size. Refusals 16, 17, 8. */
struct blend_catalogue {
    uint64_t refusal, fault_at, table, needed, names, types, structs, fields;
};
struct blend_catalogue blend_catalogue(const uint8_t *payload, size_t length, uint64_t order, uint64_t *names, size_t names_numbers, uint64_t *types,
                                       size_t types_numbers, uint64_t *structs, size_t structs_numbers, uint64_t *fields, size_t fields_numbers);

/* What a field's name says: kind 0 a value, 1 an array, 2 a pointer, 3 an array of pointers, 4 a function pointer; where the bare name stands in it, and what was
 * left over after it (the rest, which ends where the name ends: what is no part of the declarator, mostly nothing); how many asterisks (0 for no pointer); the
 * length of an array, which is the product of its dimensions (1 for no array), and how many dimensions there are (0 for no array). The dimensions go into the table,
 * in order. Refusals 9, 11, 10, in this order. */
struct blend_field {
    uint64_t refusal, needed, kind, name_at, name_length, rest_at, rest_length, indirection, length, dimensions;
};
struct blend_field blend_field(const uint8_t *name, size_t name_length, uint64_t *table, size_t numbers);

/* A value, or a size. */
struct blend_value {
    uint64_t refusal, value;
};

/* How many bytes a field takes: what blend_field told of its name, whole, the size of its type, and the bytes to a pointer (4, or any other number for 8). The length
 * counts for arrays, the type's size for values and arrays of them. A number that is no kind counts as a value. A name that is not fully read has no width: refusal 15
 * where rest_length is not 0, whatever the kind, and where blend_field refused the name. Such a field leaves open where the later fields of its struct stand.
 * Refusals 15, 10, in this order. */
struct blend_value blend_width(struct blend_field field, uint64_t size, uint64_t pointer_bytes);

/* Where a row's payload stands in the file, if the table has the row and the file that part; a payload of no bytes is there, also at the file's end. Refusal 13. */
struct blend_view {
    uint64_t refusal, at, length;
};
struct blend_view blend_view(const uint8_t *file, size_t length, const uint64_t *table, size_t numbers, size_t row);

/* What an address leads to among the first `rows` rows of the table (as many as blend_read answered): kind 0 null (address 0), 1 the first row with just that address, 2
 * nothing; `row` says something for kind 1 alone. Only principal and DATA blocks are found. Refusal 13, before null, where the table has fewer rows. */
struct blend_pointer {
    uint64_t refusal, kind, row;
};
struct blend_pointer blend_lookup(const uint64_t *table, size_t numbers, size_t rows, uint64_t address);

/* An index over the first `rows` rows of the table (as many as blend_read answered), by which addresses are found without going over the rows. Each row falls into the
 * bucket that its address modulo `buckets` is, whatever its kind, and the rows of a bucket are a chain: its head and each row's link are the number, plus 1, of the
 * next row of that bucket, 0 at the end. heads takes `buckets` numbers, links `rows`. Take about as many buckets as there are rows, and an odd number of them,
 * since addresses are mostly multiples of 8 (rows | 1 is one): then a chain has about one row, however large the scene. Building goes over the rows once and
 * over the heads once. Refusals 13, where the table has fewer rows, then 14. */
struct blend_index {
    uint64_t refusal, buckets, rows;
};
struct blend_index blend_index(const uint64_t *table, size_t numbers, size_t rows, size_t buckets, uint64_t *heads, size_t heads_numbers, uint64_t *links,
                               size_t links_numbers);

/* What blend_lookup answers, by the index that blend_index left for these rows and this many buckets: kind 0 null, 1 the row, 2 nothing. It looks at the rows of one
 * chain. Over any other numbers in heads and links it returns too. Refusals 13, where the table has fewer rows; 14; and, for an address that is not 0, 13 where its
 * chain, before a match, leaves the rows or does not rise, so that it is none that blend_index left. */
struct blend_found {
    uint64_t refusal, buckets, rows, kind, row;
};
struct blend_found blend_find(const uint64_t *table, size_t numbers, size_t rows, size_t buckets, const uint64_t *heads, size_t heads_numbers,
                              const uint64_t *links, size_t links_numbers, uint64_t address);

/* Writes a file: a header, for each of the first `rows` rows of the table a block header and its payload, and the end mark. The header is told in the numbers that blend_header
 * and blend_read answer: edition 0 legacy, 1 new; 4 or 8 bytes to a pointer; the byte order; the version. Of a row are used the code, the address, the index, the count, and
 * offset and length of the payload, which stands in the source: the file that was read, or any other bytes. The offset of the block header is not used, nor are rows
 * past the row count. To change a payload put the changed bytes after the file in the source, and let the row's payload offset point there.
 *
 * Out comes in `written` how many bytes were written, from the output's front; what follows them in the output is as it was. No byte of the output is read. On a refusal
 * nothing is written; to learn how long the output has to be, ask with an output of length 0 and take `needed` of 18. Source and output must not overlap: a file is not
 * written over the one that it is made of.
 *
 * Reading what was written gives the same header, and in each row the same code, address, index and count, the same payload length and bytes, with the offsets of the new
 * file. A legacy file whose version is three digits is written back as it was, up to the end of its end mark. Numbers in payloads are copied and not changed: a payload keeps the
 * byte order and the pointer size that it had, also where the header tells others.
 *
 * A legacy form has room for major 0 to 9, minor 0 to 99, and index, count and payload length of 4 bytes, and of the address with 4 bytes to a pointer. A new one has room for
 * major 0 to 99 and minor 0 to 99, an index of 4 bytes, and is written with 8 bytes to a pointer and in little order alone. An edition, pointer bytes or an order that is none of
 * the above, or a part of a version above 65,535, has room in no form, and is 19 with the row count; until then any edition but 0 counts as new, any order but 0 as big.
 *
 * Refusals, in this order: 13, where the table has fewer rows; then row by row 3; 13, where the source has not all of the payload; 5, also for the code of the end mark and for one
 * over 2^32-1; 4; and of a DNA1 16 and 17, with the offset in its payload, which is read as a catalogue in the byte order told; then 6; 19, of the header first; 10; and 18. */
struct blend_written {
    uint64_t refusal, fault_at, needed, row, written;
};
struct blend_written blend_write(uint64_t edition, uint64_t pointer_bytes, uint64_t order, uint64_t major, uint64_t minor, const uint64_t *table, size_t numbers,
                                 size_t rows, const uint8_t *source, size_t source_length, uint8_t *output, size_t output_length);

/* The number that the first 1, 2, 4 or 8 bytes spell. A signed value is the same bits as a signed number of that width; a float has the bits of blend_u32 or
 * blend_u64. Refusal 12. */
struct blend_value blend_u8(const uint8_t *bytes, size_t length, uint64_t order);
struct blend_value blend_u16(const uint8_t *bytes, size_t length, uint64_t order);
struct blend_value blend_u32(const uint8_t *bytes, size_t length, uint64_t order);
struct blend_value blend_u64(const uint8_t *bytes, size_t length, uint64_t order);

#ifdef __cplusplus
}
#endif

#endif
