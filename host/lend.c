/* Memory to lend: lend.h. */
#define _DEFAULT_SOURCE
#include "lend.h"

#include <stdlib.h>
#include <string.h>
#include <sys/mman.h>

enum { PAGE = 4096, GUARD = 64 };

static uint8_t *fields[FIELDS];
static uint8_t around[GUARD + MOST_ROOM + GUARD];

void make_fields(void)
{
    for (int i = 0; i < FIELDS; i++) {
        uint8_t *closed = mmap(NULL, FIELD + 2 * PAGE, PROT_NONE,
                               MAP_PRIVATE | MAP_ANONYMOUS, -1, 0);
        if (closed == MAP_FAILED ||
            mprotect(closed + PAGE, FIELD, PROT_READ | PROT_WRITE) != 0)
            abort();
        fields[i] = closed + PAGE;
    }
}

uint8_t *last_of(int field, size_t len)
{
    return fields[field] + FIELD - len;
}

uint8_t *first_of(int field)
{
    return fields[field];
}

uint8_t *lent(void)
{
    memset(around, 0xaa, sizeof around);
    return around + GUARD;
}

bool touched_only(size_t written)
{
    if (written > MOST_ROOM)
        return false;
    for (size_t i = 0; i < sizeof around; i++) {
        bool reported = i >= GUARD && i < GUARD + written;
        if (!reported && around[i] != 0xaa)
            return false;
    }
    return true;
}
