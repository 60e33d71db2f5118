/* What the parts of the boundary test share. */
#ifndef BOUNDARY_H
#define BOUNDARY_H

#include "lift.h" /* first: it needs no other header */

#include <stdbool.h>
#include <string.h>

#include "lend.h"

enum { SIDES = 2, ALGORITHMS = 2, UNKNOWN = 11 };

/* The algorithms, each with its name in a challenge; and numbers that are
 * none's, some of which are one's in their lowest byte or half. */
typedef struct {
    uint32_t number;
    const char *name;
} algorithm;
extern const algorithm algorithms[ALGORITHMS];
extern const uint32_t unknown[UNKNOWN];

void check(bool holds, const char *what, const char *file, int line);
#define CHECK(claim) check(claim, #claim, __FILE__, __LINE__)

/* Prints how many checks of a function there were. */
void done(const char *function);

/* A text to lend for reading: on side 0 it ends at a closed page, on side 1
 * it starts at one. */
uint8_t *text_at(int side, int field, const void *bytes, size_t len);

/* A region longer than 32 bits can say: a length cut to 32 bits would be `low`.
 * unmap gives it back. */
uint8_t *beyond_32_bits(size_t low, size_t *len);
void unmap(uint8_t *region, size_t len);

/* What was answered, with nothing touched that shouldn't be. */
bool wrote(lift_written w, size_t written);
bool refused(lift_written w, uint32_t number);
bool reads(lift_reading r, uint64_t password);
bool refuses(lift_reading r, uint32_t number, uint32_t marks);

/* A writer at every room, past its text's length; only that text is touched. */
void check_writer(lift_written (*write)(uint64_t, uint8_t *, size_t),
                  uint64_t password, const char *text);

/* The parts. */
void check_passwords(void);
void check_replies(void);
void check_texts(void);
void check_extended(void);
void check_challenges(void);

#endif
