/* rewrite: reads a .blend file from standard input and writes it, from its own rows and with its own version, to standard output: in its own form, or in another. What follows
 * the end mark is left out.
 *
 * usage: rewrite same | rewrite legacy|new 32|64 little|big
 *
 * Only headers and block headers are made anew. Payloads are copied byte for byte, so their numbers keep the order and the pointer size that they had: the catalogue reads in
 * its own byte order alone.
 *
 * Exit 1: the file is not read or the scene is not written, with the refusal on standard error, of 16 and 17 with the offset and of 19 with the row. Exit 2: other words. */
#define PROGRAM "rewrite"
#include "whole.h"

/* The number of one of two words. */
static uint64_t one_of(const char *word, const char *zero, const char *one)
{
    if (strcmp(word, zero) == 0)
        return 0;
    if (strcmp(word, one) == 0)
        return 1;
    fprintf(stderr, "usage: rewrite same | rewrite legacy|new 32|64 little|big\n");
    exit(2);
}

int main(int count, char **words)
{
    bool same = count == 2 && one_of(words[1], "same", "same") == 0;
    uint64_t edition = 0, pointer_bytes = 0, order = 0;
    struct whole scene;

    if (!same) {
        edition = one_of(count == 4 ? words[1] : "", "legacy", "new");
        pointer_bytes = one_of(words[2], "32", "64") == 0 ? 4 : 8;
        order = one_of(words[3], "little", "big");
    }
    scene = whole_input();
    if (!same) {
        scene.read.edition = edition;
        scene.read.pointer_bytes = pointer_bytes;
        scene.read.order = order;
    }
    whole_output(&scene.read, scene.rows, scene.bytes, scene.length);
    return 0;
}
