/* A card of 99 lines from count 9,999 down against one call of the generator at
 * count 9,999: the chain is to be walked once for the whole card. */
#include <string.h>

#include "bench.h"
#include "lift.h"

/* a line is at most 4 digits, 16 digits and 29 letters and spaces with two
 * spaces between and a newline */
enum { COUNT = 9999, LINES = 99, LONGEST_LINE = 4 + 1 + 16 + 1 + 29 + 1 };

static const char phrase[] = "This is a test.", seed[] = "test";
static const char challenge[] = "otp-md5 9999 test\n";
static uint8_t card[LINES * LONGEST_LINE];

#define BYTES(string) (const uint8_t *)(string), strlen(string)

static size_t write_card(void)
{
    return lift_write_card(BYTES(phrase), BYTES(challenge), LINES, card, sizeof card).written;
}

static uint64_t password_at(uint32_t count)
{
    return lift_password(LIFT_MD5, BYTES(phrase), BYTES(seed), count).password;
}

/* Where the line after this one starts, if this one is for that count. */
static const uint8_t *past_line(const uint8_t *line, const uint8_t *end, uint32_t count)
{
    uint32_t digits = 0;
    const uint8_t *newline = memchr(line, '\n', (size_t)(end - line));
    same(newline != NULL && newline - line > 22, "card, a line's length");
    for (int i = 0; i < 4; i++)
        digits = digits * 10 + (line[i] - (uint32_t)'0');
    same(digits == count, "card, a line's count");
    same(lift_read_plain(line + 5, 16).password == password_at(count), "card, hex");
    same(lift_read_plain(line + 22, (size_t)(newline - line) - 22).password == password_at(count),
         "card, words");
    return newline + 1;
}

/* Each line says what the generator gives at its count. */
void check_card(void)
{
    const uint8_t *line = card, *end = card + write_card();
    for (uint32_t count = COUNT; count > COUNT - LINES; count--)
        line = past_line(line, end, count);
    same(line == end, "card, how many lines");
}

static void time_one(int is_card)
{
    double start = now();
    sink = is_card ? write_card() : password_at(COUNT);
    timed("card", is_card ? "proved" : "generator", now() - start, is_card ? LINES : 1);
}

void time_card(size_t round)
{
    time_one(round % 2 == 0);
    time_one(round % 2 != 0);
}
