/* Memory to lend to the exported functions, so that a read or a write outside
 * it shows. The archive is built without a sanitizer, so texts lie between
 * pages that can't be touched, and buffers between guard bytes. */
#ifndef LEND_H
#define LEND_H

#include <stdbool.h>
#include <stddef.h>
#include <stdint.h>

enum { FIELD = 128 * 1024, FIELDS = 7, MOST_ROOM = 8192 };

/* Makes FIELDS fields of FIELD bytes, each between two closed pages. */
void make_fields(void);

/* The last len bytes of a field: the next one is out of bounds. */
uint8_t *last_of(int field, size_t len);

/* The first bytes of a field: the one before is out of bounds. */
uint8_t *first_of(int field);

/* A buffer of up to MOST_ROOM bytes of 0xaa, and more of them on both sides.
 * It is one and the same, filled anew at each call. */
uint8_t *lent(void);

/* Only the first `written` bytes of what was lent were touched. */
bool touched_only(size_t written);

#endif
