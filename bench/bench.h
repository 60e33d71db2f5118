/* What the files of the benchmark share. */
#ifndef BENCH_H
#define BENCH_H

#include <stddef.h>
#include <stdint.h>

#define LENGTH_OF(array) (sizeof(array) / sizeof *(array))

/* Nanoseconds of this thread alone: others on the machine don't count. */
double now(void);

/* Which of n is timed as the k-th in a round: each is the first in its turn. */
size_t rotated(size_t round, size_t k, size_t n);

/* A line for one timing: what was done, whose code did it, how long it took,
 * and of how many steps it consists. */
void timed(const char *what, const char *whose, double nanoseconds, size_t steps);

/* Ends the program unless two results are the same: what differs isn't timed. */
void same(int holds, const char *what);

/* What was computed goes here, so that no compiler leaves it out. */
extern volatile uint64_t sink;

/* Each concern: its results compared, then one timing of each of its subjects. */
void check_hashing(void);
void time_hashing(size_t round);
void check_words(void);
void time_words(size_t round);
void check_card(void);
void time_card(size_t round);
void check_short(void);
void time_short(size_t round);

#endif
