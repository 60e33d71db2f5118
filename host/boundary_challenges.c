/* The boundary of challenges and cards. */
#include "boundary.h"

#include <stdio.h>

/* The fields stand where the panel firmware looks for them. */
_Static_assert(sizeof(lift_challenge) == 40 && offsetof(lift_challenge, seed_at) == 0 &&
                   offsetof(lift_challenge, seed_len) == 8 && offsetof(lift_challenge, used) == 16 &&
                   offsetof(lift_challenge, count) == 24 && offsetof(lift_challenge, algorithm) == 28 &&
                   offsetof(lift_challenge, ext) == 32 && offsetof(lift_challenge, refusal) == 36,
               "lift_challenge");
_Static_assert(sizeof(lift_reading) == 16 && offsetof(lift_reading, refusal) == 8 &&
                   offsetof(lift_reading, marks) == 12,
               "lift_reading");
_Static_assert(sizeof(lift_reply) == 56 && offsetof(lift_reply, password) == 0 &&
                   offsetof(lift_reply, new_password) == 8 && offsetof(lift_reply, seed_at) == 16 &&
                   offsetof(lift_reply, seed_len) == 24 && offsetof(lift_reply, init) == 32 &&
                   offsetof(lift_reply, algorithm) == 36 && offsetof(lift_reply, count) == 40 &&
                   offsetof(lift_reply, refusal) == 44 && offsetof(lift_reply, marks) == 48,
               "lift_reply");
_Static_assert(sizeof(lift_written) == 16 && offsetof(lift_written, refusal) == 8, "lift_written");

/* Names of no algorithm: none, other case, too much or too little of one, two, others. */
static const char *const wrong_names[] = {
    "", "m", "md", "md51", "MD5", "Md5", "md4", "md6", "-md5", "md5-", "md5sha1", "sha1md5",
    "s", "sha", "sha0", "sha11", "sha1x", "SHA1", "Sha1", "shA1", "sha2", "sha-1", "sha256", "sha1\r"};

/* A challenge with that name; the next one is written over it. */
static const char *otp(const char *name, const char *rest)
{
    static char text[64];
    int len = snprintf(text, sizeof text, "otp-%s%s", name, rest);
    CHECK(len > 0 && (size_t)len < sizeof text);
    return text;
}

static bool challenge_refused(lift_challenge c, uint32_t number)
{
    return c.refusal == number && c.algorithm == 0 && c.count == 0 && c.seed_at == 0 &&
           c.seed_len == 0 && c.used == 0 && c.ext == 0;
}

static bool challenge_marked(lift_challenge c, uint32_t number, uint32_t count, size_t at, size_t len,
                             size_t used, uint32_t ext)
{
    return c.refusal == 0 && c.algorithm == number && c.count == count && c.seed_at == at &&
           c.seed_len == len && c.used == used && c.ext == ext;
}

static bool challenge_read(lift_challenge c, uint32_t number, uint32_t count, size_t at, size_t len,
                           size_t used)
{
    return challenge_marked(c, number, count, at, len, used, 0);
}

static lift_challenge challenge(int side, const char *bytes)
{
    size_t len = strlen(bytes);
    uint8_t *text = text_at(side, 0, bytes, len);
    lift_challenge c = lift_read_challenge(text, len);
    CHECK(memcmp(text, bytes, len) == 0);
    return c;
}

static void check_read_challenge(int side, const algorithm *a)
{
    const char *name = a->name;
    size_t opening = strlen(otp(name, ""));
    CHECK(challenge_read(challenge(side, otp(name, " 487 dog2\n")), a->number, 487,
                         opening + 5, 4, opening + 10));
    CHECK(challenge_read(challenge(side, otp(name, " 0 a ")), a->number, 0,
                         opening + 3, 1, opening + 5));
    CHECK(challenge_read(challenge(side, otp(name, "\t9999 \tABCDEFGHIJKLMNOP\nx")), a->number, 9999,
                         opening + 7, 16, opening + 24));
    CHECK(challenge_refused(challenge(side, otp(name, "")), 22));
    CHECK(challenge_refused(challenge(side, otp(name, " ")), 22));
    CHECK(challenge_refused(challenge(side, otp(name, " 0487 dog2\n")), 22));
    CHECK(challenge_refused(challenge(side, otp(name, " 10000 dog2\n")), 22));
    CHECK(challenge_refused(challenge(side, otp(name, " 487")), 23));
    CHECK(challenge_refused(challenge(side, otp(name, " 487 _bcdefghijklmnopq\n")), 23));
    CHECK(challenge_refused(challenge(side, otp(name, " 487 dog_2\n")), 24));
    CHECK(challenge_refused(challenge(side, otp(name, " 487 dog2")), 25));
    CHECK(challenge_refused(challenge(side, otp(name, " 487 dog2\t")), 25));
}

/* What may stand behind a seed, and how many bytes of it are used: more than one
 * where it is the mark. */
static const struct {
    const char *rest;
    size_t used;
} marks[] = {
    {" ext\n", 5}, {" ext ", 5}, {" \t ext\nmore", 7}, {" ext,\n", 6}, {" ext,a,b c", 9}, {" ext,a\r\n", 8},
    {" ext", 1}, {" ext\t", 1}, {" ext\t\n", 1}, {" ext\r\n", 1}, {" EXT\n", 1}, {" extra\n", 1}, {" ext;a\n", 1},
    {" ext,a", 1}, {" a ext\n", 1}, {"\next\n", 1}, {" \next\n", 1}, {" e", 1}, {" ", 1}, {"\n", 1}};

static void check_marks(int side, const algorithm *a)
{
    size_t opening = strlen(otp(a->name, " 487 dog2"));
    for (size_t i = 0; i < sizeof marks / sizeof *marks; i++) {
        char rest[32];
        CHECK((size_t)snprintf(rest, sizeof rest, " 487 dog2%s", marks[i].rest) < sizeof rest);
        CHECK(challenge_marked(challenge(side, otp(a->name, rest)), a->number, 487, opening - 4, 4,
                               opening + marks[i].used, marks[i].used > 1));
    }
}

/* 20 and 21: a wrong name is refused where a count follows, and where the text ends. */
static void check_read_challenge_opening(int side)
{
    CHECK(challenge_refused(challenge(side, ""), 20));
    CHECK(challenge_refused(challenge(side, "otp"), 20));
    CHECK(challenge_refused(challenge(side, "OTP-md5 1 a\n"), 20));
    CHECK(challenge_refused(challenge(side, "sha1 1 a\n"), 20));
    for (size_t i = 0; i < sizeof wrong_names / sizeof *wrong_names; i++) {
        CHECK(challenge_refused(challenge(side, otp(wrong_names[i], " 1 a\n")), 21));
        CHECK(challenge_refused(challenge(side, otp(wrong_names[i], "")), 21));
    }
}

/* No length is too long: what stands after the terminator is looked at for the
 * mark alone. */
static void check_read_challenge_large(void)
{
    size_t len;
    uint8_t *large = beyond_32_bits(3, &len);
    memcpy(large, "otp-md5 487 dog2\n", 17);
    CHECK(challenge_read(lift_read_challenge(large, len), LIFT_MD5, 487, 12, 4, 17));
    memcpy(large, "otp-md5 487 dog2 ext,", 21);
    memset(large + 21, 'a', FIELD);
    large[21 + FIELD] = '\n';
    CHECK(challenge_marked(lift_read_challenge(large, len), LIFT_MD5, 487, 12, 4, 22 + FIELD, 1));
    unmap(large, len);
    CHECK(challenge_refused(lift_read_challenge(NULL, 0), 20));
}

static lift_written md5_challenge(uint64_t count, uint8_t *buf, size_t buf_len)
{
    return lift_write_challenge(LIFT_MD5, (const uint8_t *)"DoG2", 4, (uint32_t)count, buf, buf_len);
}

static lift_written sha1_challenge(uint64_t count, uint8_t *buf, size_t buf_len)
{
    return lift_write_challenge(LIFT_SHA1, (const uint8_t *)"DoG2", 4, (uint32_t)count, buf, buf_len);
}

static const uint8_t *const letters = (const uint8_t *)"_bcdefghijklmnopq";

/* 23, 24, 13, 40 in that order, and the longest and the shortest text. */
static void check_write_challenge_refusals(const algorithm *a)
{
    uint32_t number = a->number;
    size_t longest = strlen(otp(a->name, " 9999 bcdefghijklmnopq\n"));
    size_t shortest = strlen(otp(a->name, " 0 b\n"));
    CHECK(refused(lift_write_challenge(number, letters, 17, 10000, lent(), 0), 23));
    CHECK(refused(lift_write_challenge(number, letters, 0, 10000, lent(), 0), 23));
    CHECK(refused(lift_write_challenge(number, NULL, 0, 1, lent(), 40), 23));
    CHECK(refused(lift_write_challenge(number, letters, 16, 10000, lent(), 0), 24));
    CHECK(refused(lift_write_challenge(number, letters + 1, 16, 10000, lent(), 0), 13));
    CHECK(refused(lift_write_challenge(number, letters + 1, 16, UINT32_MAX, lent(), 40), 13));
    CHECK(refused(lift_write_challenge(number, letters + 1, 16, 9999, lent(), longest - 1), 40));
    CHECK(wrote(lift_write_challenge(number, letters + 1, 16, 9999, lent(), longest), longest));
    CHECK(wrote(lift_write_challenge(number, letters + 1, 1, 0, lent(), shortest), shortest));
}

/* 21 where nothing else is wrong, and before each of the others. */
static void check_write_challenge_unknown(uint32_t number)
{
    CHECK(refused(lift_write_challenge(number, letters + 1, 16, 9999, lent(), 40), 21));
    CHECK(refused(lift_write_challenge(number, letters, 17, 9999, lent(), 40), 21));
    CHECK(refused(lift_write_challenge(number, letters, 16, 9999, lent(), 40), 21));
    CHECK(refused(lift_write_challenge(number, letters + 1, 16, 10000, lent(), 40), 21));
    CHECK(refused(lift_write_challenge(number, letters + 1, 16, 9999, lent(), 0), 21));
    CHECK(refused(lift_write_challenge(number, NULL, 0, UINT32_MAX, NULL, 0), 21));
}

static lift_written card_of(const char *phrase, const char *text, uint64_t lines, uint8_t *buf,
                            size_t buf_len)
{
    return lift_write_card((const uint8_t *)phrase, strlen(phrase), (const uint8_t *)text,
                           strlen(text), (uint32_t)lines, buf, buf_len);
}

/* 01, The card */
static lift_written md5_card(uint64_t lines, uint8_t *buf, size_t buf_len)
{
    return card_of("A_Valid_Pass_Phrase", "otp-md5 99 AValidSeed\n", lines, buf, buf_len);
}

/* RFC 2289, Appendix C */
static lift_written sha1_card(uint64_t lines, uint8_t *buf, size_t buf_len)
{
    return card_of("This is a test.", "otp-sha1 99 TeSt\n", lines, buf, buf_len);
}

static const uint8_t phrase_bytes[64] = "This is a test.";

static lift_written card(size_t phrase_len, const char *text, uint32_t lines, size_t room)
{
    uint8_t *p = text_at(0, 0, phrase_bytes, phrase_len), *c = text_at(1, 1, text, strlen(text));
    lift_written w = lift_write_card(p, phrase_len, c, strlen(text), lines, lent(), room);
    CHECK(memcmp(p, phrase_bytes, phrase_len) == 0 && memcmp(c, text, strlen(text)) == 0);
    return w;
}

/* 10, 11, 20, 21 in that order, before all that follows. */
static void check_card_opening(void)
{
    CHECK(refused(card(9, "", 0, 0), 10));
    CHECK(refused(card(64, "", 0, 0), 11));
    CHECK(refused(card(10, "", 0, 0), 20));
    for (size_t i = 0; i < sizeof wrong_names / sizeof *wrong_names; i++)
        CHECK(refused(card(63, otp(wrong_names[i], " 01 _"), 0, 0), 21));
    lent();
    CHECK(refused(lift_write_card(NULL, 0, NULL, 0, 0, NULL, 0), 10));
    CHECK(refused(lift_write_card(phrase_bytes, 15, NULL, 0, 1, NULL, 0), 20));
}

/* 22 to 25, 70, 40 in that order. */
static void check_card_refusals(const char *name)
{
    CHECK(refused(card(10, otp(name, " 01 a\n"), 0, 0), 22));
    CHECK(refused(card(10, otp(name, " 1 \n"), 0, 0), 23));
    CHECK(refused(card(10, otp(name, " 1 _\n"), 0, 0), 24));
    CHECK(refused(card(10, otp(name, " 1 a"), 0, 0), 25));
    CHECK(refused(card(10, otp(name, " 1 a\n"), 0, 0), 70));
    CHECK(refused(card(10, otp(name, " 0 a\n"), 1, 0), 70));
    CHECK(refused(card(10, otp(name, " 98 a\n"), 99, MOST_ROOM), 70));
    CHECK(refused(card(10, otp(name, " 100 a\n"), 100, MOST_ROOM), 70));
    CHECK(refused(card(10, otp(name, " 9999 a\n"), UINT32_MAX, MOST_ROOM), 70));
    CHECK(refused(card(10, otp(name, " 99 a\n"), 99, 0), 40));
    CHECK(card(10, otp(name, " 99 a\n"), 99, MOST_ROOM).refusal == 0);
    CHECK(card(10, otp(name, " 9999 a\n"), 99, MOST_ROOM).refusal == 0);
}

/* A whole card: exact room, one byte short, and the bytes past it. */
static void check_card_room(lift_written (*write)(uint64_t, uint8_t *, size_t), uint64_t lines)
{
    size_t len = write(lines, lent(), MOST_ROOM).written;
    CHECK(len > 0 && len <= 52 * lines && touched_only(len));
    CHECK(refused(write(lines, lent(), len - 1), 40));
    CHECK(wrote(write(lines, lent(), len), len));
    CHECK(write(lines, last_of(0, len), len).written == len);
    CHECK(write(lines, first_of(0), len).written == len);
    CHECK(memcmp(last_of(0, len), first_of(0), len) == 0);
}

static void check_write_challenge(void)
{
    check_writer(md5_challenge, 0, "otp-md5 0 dog2\n");
    check_writer(md5_challenge, 9999, "otp-md5 9999 dog2\n");
    check_writer(sha1_challenge, 0, "otp-sha1 0 dog2\n");
    check_writer(sha1_challenge, 9999, "otp-sha1 9999 dog2\n");
    for (int at = 0; at < ALGORITHMS; at++)
        check_write_challenge_refusals(&algorithms[at]);
    for (int at = 0; at < UNKNOWN; at++)
        check_write_challenge_unknown(unknown[at]);
    done("lift_write_challenge");
}

static void check_card(void)
{
    check_writer(md5_card, 1, "99 85c43ee03857765b FOWL KID MASH DEAD DUAL OAF\n");
    check_writer(sha1_card, 1, "99 87fec7768b73ccf9 GAFF WAIT SKID GIG SKY EYED\n");
    check_card_opening();
    for (int at = 0; at < ALGORITHMS; at++)
        check_card_refusals(algorithms[at].name);
    for (uint64_t lines = 1; lines <= 99; lines++) {
        check_card_room(md5_card, lines);
        check_card_room(sha1_card, lines);
    }
    done("lift_write_card");
}

void check_challenges(void)
{
    for (int side = 0; side < SIDES; side++) {
        for (int at = 0; at < ALGORITHMS; at++)
            check_read_challenge(side, &algorithms[at]);
        for (int at = 0; at < ALGORITHMS; at++)
            check_marks(side, &algorithms[at]);
        check_read_challenge_opening(side);
    }
    check_read_challenge_large();
    done("lift_read_challenge");
    check_write_challenge();
    check_card();
}
