/* The boundary of the texts of replies, plain or extended, which are read and
 * looked up in no table. */
#include "boundary.h"

#include <stdio.h>

/* 01's password for count 99, and a new one, each in both spellings. */
static const uint64_t present = 0x85c43ee03857765bu, fresh = 0xc3393c088789b0afu;
#define PRESENT_HEX "85c43ee03857765b"
#define PRESENT_WORDS "FOWL KID MASH DEAD DUAL OAF"
#define FRESH_HEX "c3393c088789b0af"
#define FRESH_WORDS "NELL OUST AND DOE HOST BILE"
/* The first word is unknown, or the last; the words are known, their sum is
 * wrong. */
#define FIRST "QQ KID MASH DEAD DUAL OAF"
#define LAST "FOWL KID MASH DEAD DUAL QQ"
#define UNSUMMED "FOWL KID MASH DEAD DUAL OAK"

enum { MOST_PLAIN = 128, MOST = 256 };

static lift_reply reply(int side, const void *bytes, size_t len)
{
    uint8_t *text = text_at(side, 0, bytes, len);
    lift_reply r = lift_read_reply(text, len);
    CHECK(len == 0 || memcmp(text, bytes, len) == 0);
    return r;
}

static lift_reply reply_text(int side, const char *text)
{
    return reply(side, text, strlen(text));
}

/* No field has anything but the passwords, the refusal and the marks. */
static bool no_values(lift_reply r)
{
    return r.init == 0 && r.algorithm == 0 && r.count == 0 && r.seed_at == 0 && r.seed_len == 0;
}

static bool is_login(lift_reply r, uint64_t password)
{
    return r.refusal == 0 && r.marks == 0 && r.password == password && r.new_password == 0 && no_values(r);
}

static bool is_refused(lift_reply r, uint32_t number, uint32_t marks)
{
    return r.refusal == number && r.marks == marks && r.password == 0 && r.new_password == 0 && no_values(r);
}

static bool is_renewal(lift_reply r, uint32_t algorithm_number, uint32_t count, size_t at, size_t len)
{
    return r.refusal == 0 && r.marks == 0 && r.init == 1 && r.password == present && r.new_password == fresh &&
           r.algorithm == algorithm_number && r.count == count && r.seed_at == at && r.seed_len == len;
}

/* A renewal with these parameters, in hex; the next one is written over it. */
static const char *init(const char *parameters)
{
    static char text[2 * MOST];
    int len = snprintf(text, sizeof text, "init-hex:" PRESENT_HEX ":%s:" FRESH_HEX, parameters);
    CHECK(len > 0 && (size_t)len < sizeof text);
    return text;
}

/* Where the parameters start there. */
static const size_t parameters_at = sizeof "init-hex:" PRESENT_HEX ":" - 1;

/* A text without a colon is plain. */
static void check_plain(int side)
{
    CHECK(is_login(reply_text(side, PRESENT_WORDS), present));
    CHECK(is_login(reply_text(side, "\tfowl kid\r\nmash dead dual oaf "), present));
    CHECK(is_login(reply_text(side, "85c4 3EE0 3857 765b"), present));
    CHECK(is_login(reply_text(side, "a a a a a a"), 0));
    CHECK(is_login(reply_text(side, "ffffffffffffffff"), UINT64_MAX));
    CHECK(is_refused(reply_text(side, FIRST), 31, LIFT_MARK(1)));
    CHECK(is_refused(reply_text(side, LAST), 31, LIFT_MARK(6)));
    CHECK(is_refused(reply_text(side, UNSUMMED), 32, 0));
    CHECK(is_refused(reply_text(side, "FOWL KID MASH DEAD DUAL"), 33, 0));
    CHECK(is_refused(reply_text(side, ""), 33, 0));
    CHECK(is_refused(lift_read_reply(NULL, 0), 33, 0));
}

/* The types that are logins. */
static void check_logins(int side)
{
    CHECK(is_login(reply_text(side, "hex:" PRESENT_HEX), present));
    CHECK(is_login(reply_text(side, "hex:\t85C4 3ee0\r\n3857 765B "), present));
    CHECK(is_login(reply_text(side, "hex:ABE ACE ADA ADD BAD A"), 0xabeaceadaaddbadau));
    CHECK(is_login(reply_text(side, "word:" PRESENT_WORDS), present));
    CHECK(is_login(reply_text(side, "word: fowl Kid\tmash DEAD\n\ndual oaf\r"), present));
    CHECK(is_refused(reply_text(side, "word:" FIRST), 31, LIFT_MARK(1)));
    CHECK(is_refused(reply_text(side, "word:" UNSUMMED), 32, 0));
    CHECK(is_refused(reply_text(side, "word:" PRESENT_HEX), 33, 0));
    CHECK(is_refused(reply_text(side, "hex:" PRESENT_WORDS), 33, 0));
    CHECK(is_refused(reply_text(side, "hex:"), 33, 0));
    CHECK(is_refused(reply_text(side, "word: \t"), 33, 0));
}

/* 34 where the type isn't one of the four in lower case, whatever the parts. */
static void check_types(int side)
{
    static const char *const texts[] = {
        ":", "::::", "HEX:" PRESENT_HEX, " hex:" PRESENT_HEX, "hex :" PRESENT_HEX, "he:a", "hexa:a", "words:a:b",
        "init:a:b:c", "init-:a:b:c", "init-md5:a:b:c", "init-hexx:a:b:c", "INIT-HEX:a:b:c", "init hex:a:b:c",
        "md5:a", PRESENT_HEX ":"};
    for (size_t i = 0; i < sizeof texts / sizeof *texts; i++)
        CHECK(is_refused(reply_text(side, texts[i]), 34, 0));
    CHECK(is_refused(reply(side, "hex\0:" PRESENT_HEX, 21), 34, 0));
}

/* 35 before what is wrong with a part. */
static void check_parts(int side)
{
    static const char *const texts[] = {"hex:a:b", "hex::", "hex:" PRESENT_HEX ":", "word:a:b:c", "init-hex:a",
                                        "init-hex:a:b", "init-word:a:b:c:d", "init-word::::"};
    for (size_t i = 0; i < sizeof texts / sizeof *texts; i++)
        CHECK(is_refused(reply_text(side, texts[i]), 35, 0));
}

/* 128 bytes without a colon, 256 with one, wherever it stands. */
static void check_lengths(int side)
{
    uint8_t text[FIELD];
    memset(text, ' ', sizeof text);
    memcpy(text + MOST_PLAIN - 11, "a a a a a a", 11);
    CHECK(is_login(reply(side, text, MOST_PLAIN), 0));
    CHECK(is_refused(reply(side, text, MOST_PLAIN + 1), 30, 0));
    CHECK(is_refused(reply(side, text, sizeof text), 30, 0));
    text[MOST_PLAIN] = ':';
    CHECK(is_refused(reply(side, text, MOST_PLAIN + 1), 34, 0));
    CHECK(is_refused(reply(side, text, MOST), 34, 0));
    CHECK(is_refused(reply(side, text, MOST + 1), 30, 0));
    memset(text, ' ', sizeof text);
    memcpy(text, "hex:", 4);
    memcpy(text + MOST - 16, PRESENT_HEX, 16);
    CHECK(is_login(reply(side, text, MOST), present));
    CHECK(is_refused(reply(side, text, MOST - 1), 33, 0));
    CHECK(is_refused(reply(side, text, MOST + 1), 30, 0));
    CHECK(is_refused(reply(side, text, sizeof text), 30, 0));
    memset(text, ':', sizeof text);
    CHECK(is_refused(reply(side, text, MOST), 34, 0));
    CHECK(is_refused(reply(side, text, sizeof text), 30, 0));
}

/* All fields of a renewal; the seed as it stands in the text. */
static void check_renewals(int side)
{
    static const char example[] = "init-hex:5bf0 75d9 959d 036f:md5 499 ke1235:3712 dcb4 aa53 16c1";
    static const char spelt[] = "init-word:" PRESENT_WORDS ":\r\n sha1\t9999 \nABCDEFGHijkl6789 \t:" FRESH_WORDS;
    lift_reply r = reply_text(side, example);
    CHECK(r.refusal == 0 && r.marks == 0 && r.init == 1 && r.password == 0x5bf075d9959d036fu &&
          r.new_password == 0x3712dcb4aa5316c1u && r.algorithm == LIFT_MD5 && r.count == 499);
    CHECK(r.seed_at == 37 && r.seed_len == 6 && memcmp(example + r.seed_at, "ke1235", 6) == 0);
    CHECK(is_renewal(reply_text(side, init("md5 499 ke1235")), LIFT_MD5, 499, parameters_at + 8, 6));
    CHECK(is_renewal(reply_text(side, spelt), LIFT_SHA1, 9999, (size_t)(strstr(spelt, "ABC") - spelt), 16));
}

/* A count that is none is 0, any other the number it is; it isn't refused. */
static void check_counts(int side)
{
    static const struct {
        const char *digits;
        uint32_t count;
    } counts[] = {{"0499", 0}, {"+5", 0}, {"-5", 0}, {"12345", 0}, {"1.5", 0}, {"x", 0}, {"00", 0}, {"10000", 0},
                  {"65538", 0}, {"4294967297", 0}, {"18446744073709551617", 0}, {"0", 0}, {"1", 1}, {"2", 2},
                  {"10", 10}, {"999", 999}, {"9999", 9999}};
    for (size_t i = 0; i < sizeof counts / sizeof *counts; i++) {
        char parameters[64];
        size_t at = parameters_at + 6 + strlen(counts[i].digits);
        snprintf(parameters, sizeof parameters, "sha1 %s a", counts[i].digits);
        CHECK(is_renewal(reply_text(side, init(parameters)), LIFT_SHA1, counts[i].count, at, 1));
    }
}

/* A name that is no algorithm's is 0, and isn't refused. */
static void check_names(int side)
{
    static const char *const names[] = {"MD5", "Sha1", "md4", "md", "md55", "sha", "sha11", "otp-md5", "md5,", "1", "?"};
    for (size_t i = 0; i < sizeof names / sizeof *names; i++) {
        char parameters[64];
        snprintf(parameters, sizeof parameters, "%s 7 a", names[i]);
        CHECK(is_renewal(reply_text(side, init(parameters)), 0, 7, parameters_at + 3 + strlen(names[i]), 1));
    }
    CHECK(is_renewal(reply_text(side, init("lift2 md5 499")), 0, 0, parameters_at + 10, 3));
}

/* No seed is the empty part at the text's start. */
static void check_missing(int side)
{
    CHECK(is_renewal(reply_text(side, init("md5 499")), LIFT_MD5, 499, 0, 0));
    CHECK(is_renewal(reply_text(side, init("md5 499 \t\r\n")), LIFT_MD5, 499, 0, 0));
    CHECK(is_renewal(reply_text(side, init("sha1")), LIFT_SHA1, 0, 0, 0));
    CHECK(is_renewal(reply_text(side, init("499")), 0, 0, 0, 0));
    CHECK(is_renewal(reply_text(side, init("")), 0, 0, 0, 0));
    CHECK(is_renewal(reply_text(side, init(" \n")), 0, 0, 0, 0));
}

/* Of any length, up to the most that a text can have; blanks inside belong to
 * it, those around it don't. */
static void check_seed_lengths(int side)
{
    char parameters[MOST] = "md5 499 ";
    size_t most = MOST - strlen(init("md5 499 "));
    for (size_t len = 1; len <= most; len++) {
        parameters[7 + len] = 'a';
        CHECK(is_renewal(reply_text(side, init(parameters)), LIFT_MD5, 499, parameters_at + 8, len));
    }
    parameters[8 + most] = 'a';
    CHECK(is_refused(reply_text(side, init(parameters)), 30, 0));
    CHECK(is_renewal(reply_text(side, init("md5 499 \tA  Seed \r")), LIFT_MD5, 499, parameters_at + 9, 7));
}

/* Of any byte but white space, which is none, and a colon, which is a part more. */
static void check_seed_bytes(int side)
{
    for (int byte = 1; byte < 256; byte++) {
        char parameters[] = {'m', 'd', '5', ' ', '9', ' ', (char)byte, '\0'};
        bool white = strchr(" \t\r\n", byte) != NULL;
        lift_reply r = reply_text(side, init(parameters));
        CHECK(byte == ':' ? is_refused(r, 35, 0) : is_renewal(r, LIFT_MD5, 9, white ? 0 : parameters_at + 6, white ? 0 : 1));
    }
}

/* A renewal in words, with these two passwords. */
static lift_reply in_words(int side, const char *old, const char *new)
{
    char text[2 * MOST];
    snprintf(text, sizeof text, "init-word:%s:x _:%s", old, new);
    return reply_text(side, text);
}

/* The new password's refusal comes first, and neither waits for the values'. */
static void check_passwords_read(int side)
{
    CHECK(is_refused(in_words(side, LAST, FIRST), 31, LIFT_MARK(1)));
    CHECK(is_refused(in_words(side, FIRST, LAST), 31, LIFT_MARK(6)));
    CHECK(is_refused(in_words(side, FIRST, UNSUMMED), 32, 0));
    CHECK(is_refused(in_words(side, FIRST, FRESH_HEX), 33, 0));
    CHECK(is_refused(in_words(side, FIRST, ""), 33, 0));
    CHECK(is_refused(in_words(side, FIRST, FRESH_WORDS), 31, LIFT_MARK(1)));
    CHECK(is_refused(in_words(side, UNSUMMED, FRESH_WORDS), 32, 0));
    CHECK(is_refused(in_words(side, PRESENT_HEX, FRESH_WORDS), 33, 0));
    CHECK(is_refused(in_words(side, " ", FRESH_WORDS), 33, 0));
    CHECK(is_refused(reply_text(side, "init-hex:::"), 33, 0));
    CHECK(is_renewal(in_words(side, PRESENT_WORDS, FRESH_WORDS), 0, 0, 0, 0));
}

static void check_marks(int side)
{
    for (uint32_t marks = 1; marks <= 63; marks++) {
        char text[] = "A A A A A A";
        for (int word = 1; word <= 6; word++)
            if (marks & LIFT_MARK(word))
                text[2 * (word - 1)] = 'Q'; /* no word */
        CHECK(is_refused(reply_text(side, text), 31, marks));
        CHECK(is_refused(in_words(side, text, FRESH_WORDS), 31, marks));
        CHECK(is_refused(in_words(side, PRESENT_WORDS, text), 31, marks));
    }
}

/* What is written is read back. */
static void check_written(uint32_t type, bool is_init)
{
    static const uint8_t seed[] = "ABCDEFGHijkl6789";
    uint8_t text[MOST];
    lift_written w = lift_write_extended(type, present, LIFT_SHA1, 9999, seed, 16, fresh, text, sizeof text);
    lift_reply r = lift_read_reply(text, w.written);
    CHECK(w.refusal == 0);
    CHECK(is_init ? is_renewal(r, LIFT_SHA1, 9999, r.seed_at, 16) : is_login(r, present));
    CHECK(!is_init || memcmp(text + r.seed_at, seed, 16) == 0);
}

/* A length that is good in its lowest 32 bits. */
static void check_large(void)
{
    size_t len;
    uint8_t *large = beyond_32_bits(20, &len);
    memcpy(large, "hex:" PRESENT_HEX, 20);
    CHECK(is_refused(lift_read_reply(large, len), 30, 0));
    memset(large, ' ', 4);
    CHECK(is_refused(lift_read_reply(large, len), 30, 0));
    unmap(large, len);
}

static void check_side(int side)
{
    check_plain(side);
    check_logins(side);
    check_types(side);
    check_parts(side);
    check_lengths(side);
    check_renewals(side);
    check_counts(side);
    check_names(side);
    check_missing(side);
    check_seed_lengths(side);
    check_seed_bytes(side);
    check_passwords_read(side);
    check_marks(side);
}

void check_texts(void)
{
    for (int side = 0; side < SIDES; side++)
        check_side(side);
    check_written(LIFT_HEX, false);
    check_written(LIFT_WORD, false);
    check_written(LIFT_INIT_HEX, true);
    check_written(LIFT_INIT_WORD, true);
    check_large();
    done("lift_read_reply");
}
