/* gap: blendscan over a library that is wrong in one number, which the variable GAP names. The test runs its summary, which must not say that every byte is accounted
 * for; and files that are refused, of which it must not say what was being read where the place is wrong. */
#include "libc.h"

#include "blend.h"

static bool gap_is(const char *name)
{
    const char *gap = getenv("GAP");

    return gap != NULL && strcmp(gap, name) == 0;
}

static struct blend_read wrong_read(const uint8_t *file, size_t length, uint64_t *table, size_t numbers)
{
    struct blend_read r = blend_read(file, length, table, numbers);

    if (r.refusal != 0) {
        if (gap_is("fault"))
            r.fault_at++;
        return r;
    }
    if (gap_is("first payload"))
        table[6]--;
    if (gap_is("last payload"))
        table[BLEND_ROW * r.rows - 1]--;
    if (gap_is("first block header")) {
        table[5]++;
        table[6]--;
    }
    if (gap_is("row"))
        r.rows--;
    if (gap_is("end"))
        r.end++;
    return r;
}

#define blend_read(file, length, table, numbers) wrong_read(file, length, table, numbers)
#include "blendscan.c"
