/* Takes what Heimdal's program otp takes: a count and a seed as arguments, the
 * pass-phrase as the first line of standard input. The count goes to the
 * functions of lift.h as the text that it is, in a challenge, and as the number
 * that otp makes of it, by atoi. Prints an answer a line. */
#include <inttypes.h>
#include <stdio.h>
#include <stdlib.h>
#include <string.h>

#include "lift.h"

enum { MOST_LINE = 80 };

static void print_challenge(const char *count, const char *seed)
{
    char text[MOST_LINE];
    snprintf(text, sizeof text, "otp-md5 %s %s\n", count, seed);
    lift_challenge c = lift_read_challenge((const uint8_t *)text, strlen(text));
    if (c.refusal == 0)
        printf("ok %" PRIu32 "\n", c.count);
    else
        printf("no %" PRIu32 "\n", c.refusal);
}

static void print_password(const char *phrase, const char *seed, uint32_t count)
{
    lift_reading r = lift_password(LIFT_MD5, (const uint8_t *)phrase, strlen(phrase),
                                   (const uint8_t *)seed, strlen(seed), count);
    if (r.refusal == 0)
        printf("ok %016" PRIx64 "\n", r.password);
    else
        printf("no %" PRIu32 "\n", r.refusal);
}

int main(int argc, char **argv)
{
    char phrase[MOST_LINE];
    if (argc != 3 || fgets(phrase, sizeof phrase, stdin) == NULL)
        return 1;
    phrase[strcspn(phrase, "\n")] = '\0';
    print_challenge(argv[1], argv[2]);
    print_password(phrase, argv[2], (uint32_t)atoi(argv[1]));
    return 0;
}
