/* What the fuzz targets share: a check that ends the run, and buffers that show what was written. */
#include <luvrodan.h>
#include <stdlib.h>
#include <string.h>

enum { GUARD = 64, UNTOUCHED = 0xa5 };

static inline void check(int holds)
{
    if (!holds)
        abort();
}

/* The first byte is as it came, and each is the one after it. */
static inline void check_untouched(const uint8_t *from, const uint8_t *to)
{
    if (from < to)
        check(*from == UNTOUCHED && memcmp(from, from + 1, (size_t)(to - from) - 1) == 0);
}
