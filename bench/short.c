/* Short texts and the shortest refusals, by the proved code alone: what a call
 * takes where there is little to read or to write. */
#include <string.h>

#include "bench.h"
#include "lift.h"

enum { TIMES = 2000, ROOM = 32, COUNT = 9999 };

#define SIXTEEN_BLANKS "                "
#define SIXTY_FOUR_BLANKS SIXTEEN_BLANKS SIXTEEN_BLANKS SIXTEEN_BLANKS SIXTEEN_BLANKS

/* An answer as one number: a refusal by itself, or what the call gives. */
typedef uint64_t answer(const uint8_t *text, size_t len);

static uint64_t plain_read(const uint8_t *text, size_t len)
{
    lift_reading r = lift_read_plain(text, len);
    return r.refusal != 0 ? r.refusal : r.password;
}

/* Of a renewal its new password, which is read first. */
static uint64_t reply_read(const uint8_t *text, size_t len)
{
    lift_reply r = lift_read_reply(text, len);
    return r.refusal != 0 ? r.refusal : r.init != 0 ? r.new_password : r.password;
}

static uint64_t challenge_read(const uint8_t *text, size_t len)
{
    lift_challenge c = lift_read_challenge(text, len);
    return c.refusal != 0 ? c.refusal : c.used;
}

/* A seed of one letter is MD5's, a longer one SHA-1's, whose name is longer too. */
static uint64_t challenge_written(const uint8_t *seed, size_t len)
{
    uint8_t buf[ROOM];
    uint32_t algorithm = len == 1 ? LIFT_MD5 : LIFT_SHA1;
    lift_written w = lift_write_challenge(algorithm, seed, len, COUNT, buf, sizeof buf);
    return w.refusal != 0 ? w.refusal : w.written;
}

typedef struct {
    const char *what, *text;
    answer *call;
    uint64_t due;
} row;

static const row rows[] = {
    {"plain-empty", "", plain_read, 33},
    {"plain-blank", SIXTY_FOUR_BLANKS SIXTY_FOUR_BLANKS, plain_read, 33},
    {"plain-words", "A A A A A A", plain_read, 0},
    {"plain-hex", "85c43ee03857765b", plain_read, 0x85c43ee03857765b},
    {"reply-empty", "", reply_read, 33},
    {"reply-blank", SIXTY_FOUR_BLANKS SIXTY_FOUR_BLANKS, reply_read, 33},
    {"reply-words", "A A A A A A", reply_read, 0},
    {"reply-hex", "85c43ee03857765b", reply_read, 0x85c43ee03857765b},
    {"reply-type", "x:", reply_read, 34},
    {"reply-extended", "hex:85c43ee03857765b", reply_read, 0x85c43ee03857765b},
    {"reply-init", "init-hex:85c43ee03857765b:md5 9999 ABCDEFGHijkl6789:c3393c088789b0af", reply_read, 0xc3393c088789b0af},
    {"challenge-empty", "", challenge_read, 20},
    {"challenge-short", "otp-md5 0 t\n", challenge_read, 12},
    {"challenge-long", "otp-sha1 9999 ABCDEFGHijkl6789 ext\n", challenge_read, 35},
    {"written-short", "t", challenge_written, 15},
    {"written-long", "ABCDEFGHijkl6789", challenge_written, 31},
};

static uint64_t answer_to(const row *one)
{
    return one->call((const uint8_t *)one->text, strlen(one->text));
}

void check_short(void)
{
    for (size_t i = 0; i < LENGTH_OF(rows); i++)
        same(answer_to(&rows[i]) == rows[i].due, rows[i].what);
}

static void time_row(const row *one)
{
    double start = now();
    for (int i = 0; i < TIMES; i++)
        sink = answer_to(one);
    timed(one->what, "proved", now() - start, TIMES);
}

void time_short(size_t round)
{
    for (size_t k = 0; k < LENGTH_OF(rows); k++)
        time_row(&rows[rotated(round, k, LENGTH_OF(rows))]);
}
