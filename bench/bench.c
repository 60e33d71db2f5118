/* Times the proved code beside plain C and, where it is installed, Heimdal's
 * libotp. Prints a line for each timing: what, whose, nanoseconds, steps. All
 * have to give the same results before anything is timed. The argument is how
 * many rounds there are; with 0 the results are compared and nothing is timed. */
#define _DEFAULT_SOURCE
#include "bench.h"

#include <stdio.h>
#include <stdlib.h>
#include <time.h>

#include "heimdal.h"

static void (*const concerns[])(size_t) = {time_hashing, time_words, time_card, time_short};

volatile uint64_t sink;

double now(void)
{
    struct timespec t;
    clock_gettime(CLOCK_THREAD_CPUTIME_ID, &t);
    return (double)t.tv_sec * 1e9 + (double)t.tv_nsec;
}

size_t rotated(size_t round, size_t k, size_t n)
{
    return (round + k) % n;
}

void timed(const char *what, const char *whose, double nanoseconds, size_t steps)
{
    printf("%s %s %.0f %zu\n", what, whose, nanoseconds, steps);
}

void same(int holds, const char *what)
{
    if (holds)
        return;
    fprintf(stderr, "bench: results differ: %s\n", what);
    exit(1);
}

static void time_round(size_t round)
{
    for (size_t k = 0; k < LENGTH_OF(concerns); k++)
        concerns[rotated(round, k, LENGTH_OF(concerns))](round);
}

int main(int argc, char **argv)
{
    size_t rounds = argc == 2 ? (size_t)atoi(argv[1]) : 0;
    find_heimdal();
    check_hashing();
    check_words();
    check_card();
    check_short();
    for (size_t round = 0; round < rounds; round++)
        time_round(round);
    return 0;
}
