/* The boundary of the digests and the generator. */
#include "boundary.h"

enum { LONGEST_DIGEST = 20 };

/* A digest: its function, its length, and what it is of the empty text and of
 * `abc`. */
typedef struct {
    const char *name;
    lift_written (*of)(const uint8_t *, size_t, uint8_t *, size_t);
    size_t len;
    uint8_t of_empty[LONGEST_DIGEST], of_abc[LONGEST_DIGEST];
} digest_case;

static const digest_case digests[ALGORITHMS] = {
    /* RFC 1321, A.5 */
    {"lift_md5", lift_md5, 16,
     {0xd4, 0x1d, 0x8c, 0xd9, 0x8f, 0x00, 0xb2, 0x04, 0xe9, 0x80,
      0x09, 0x98, 0xec, 0xf8, 0x42, 0x7e},
     {0x90, 0x01, 0x50, 0x98, 0x3c, 0xd2, 0x4f, 0xb0, 0xd6, 0x96,
      0x3f, 0x7d, 0x28, 0xe1, 0x7f, 0x72}},
    /* NIST's vectors for FIPS 180: SHA1ShortMsg, Len 0; the example of one block */
    {"lift_sha1", lift_sha1, 20,
     {0xda, 0x39, 0xa3, 0xee, 0x5e, 0x6b, 0x4b, 0x0d, 0x32, 0x55,
      0xbf, 0xef, 0x95, 0x60, 0x18, 0x90, 0xaf, 0xd8, 0x07, 0x09},
     {0xa9, 0x99, 0x3e, 0x36, 0x47, 0x06, 0x81, 0x6a, 0xba, 0x3e,
      0x25, 0x71, 0x78, 0x50, 0xc2, 0x6c, 0x9c, 0xd0, 0xd8, 0x9d}},
};

static void check_digest_room(const digest_case *d)
{
    for (size_t room = 0; room <= 2 * LONGEST_DIGEST; room++) {
        uint8_t *digest = lent();
        lift_written w = d->of((const uint8_t *)"abc", 3, digest, room);
        CHECK(room < d->len ? refused(w, 40) : wrote(w, d->len));
        CHECK(room < d->len || memcmp(digest, d->of_abc, d->len) == 0);
    }
    lent();
    CHECK(refused(d->of((const uint8_t *)"abc", 3, NULL, 0), 40));
    CHECK(refused(d->of(NULL, 0, NULL, 0), 40));
    uint8_t *digest = lent();
    CHECK(wrote(d->of(NULL, 0, digest, d->len), d->len));
    CHECK(memcmp(digest, d->of_empty, d->len) == 0);
}

static void check_digest_length(const digest_case *d, int side)
{
    static const uint8_t zeros[FIELD];
    for (size_t len = 0; len <= 4100; len++) {
        uint8_t *text = text_at(side, 0, zeros, len), *digest = lent();
        lift_written w = d->of(text, len, digest, d->len);
        CHECK(len > 4096 ? refused(w, 12) : wrote(w, d->len));
        CHECK(len == 0 || memcmp(text, zeros, len) == 0);
    }
    uint8_t *text = text_at(side, 0, zeros, sizeof zeros);
    CHECK(refused(d->of(text, sizeof zeros, lent(), d->len), 12));
    CHECK(refused(d->of(text, 4097, lent(), d->len - 1), 12)); /* 12 before 40 */
    CHECK(refused(d->of(text, 4097, NULL, 0), 12));
    CHECK(refused(d->of(text, 4096, lent(), d->len - 1), 40));
    /* the digest where a byte past it, or before it, would stop us */
    uint8_t *digest = text_at(side, 1, zeros, d->len);
    CHECK(d->of((const uint8_t *)"abc", 3, digest, d->len).written == d->len);
    CHECK(memcmp(digest, d->of_abc, d->len) == 0);
}

static void check_digest_large(const digest_case *d)
{
    size_t len;
    uint8_t *large = beyond_32_bits(3, &len);
    CHECK(refused(d->of(large, len, lent(), d->len), 12));
    lift_written w = d->of((const uint8_t *)"abc", 3, large, len);
    CHECK(w.refusal == 0 && w.written == d->len);
    CHECK(memcmp(large, d->of_abc, d->len) == 0 && large[d->len] == 0);
    unmap(large, len);
}

/* RFC 2289, Appendix C: This is a test., TeSt, counts 0 and 99 */
static const uint8_t phrase[64] = "This is a test.";
static const uint8_t seed[17] = "TeSt";
enum { PHRASE = 15, SEED = 4 };
static const struct {
    uint32_t algorithm;
    uint64_t at_0, at_99;
} rows[ALGORITHMS] = {
    {LIFT_MD5, 0x9e876134d90499ddu, 0x50fe1962c4965880u},
    {LIFT_SHA1, 0xbb9e6ae1979d8ff4u, 0x87fec7768b73ccf9u},
};

static lift_reading password(int side, uint32_t number, size_t phrase_len, const void *seed_bytes,
                             size_t seed_len, uint32_t count)
{
    uint8_t *p = text_at(side, 0, phrase, phrase_len);
    uint8_t *s = text_at(side, 1, seed_bytes, seed_len);
    lift_reading r = lift_password(number, p, phrase_len, s, seed_len, count);
    CHECK(memcmp(p, phrase, phrase_len) == 0);
    CHECK(memcmp(s, seed_bytes, seed_len) == 0);
    return r;
}

static void check_password_limits(int side, uint32_t number)
{
    for (size_t len = 0; len <= 64; len++) {
        lift_reading r = password(side, number, len, seed, SEED, 1);
        CHECK(len < 10 ? refuses(r, 10, 0) : len > 63 ? refuses(r, 11, 0) : r.refusal == 0);
    }
    for (size_t len = 0; len <= 17; len++) {
        lift_reading r = password(side, number, PHRASE, "abcdefghijklmnopq", len, 1);
        CHECK(len < 1 || len > 16 ? refuses(r, 23, 0) : r.refusal == 0);
    }
    for (int byte = 0; byte < 256; byte++) {
        uint8_t last[2] = {'a', (uint8_t)byte};
        bool good = (byte >= '0' && byte <= '9') || (byte >= 'A' && byte <= 'Z') ||
                    (byte >= 'a' && byte <= 'z');
        lift_reading r = password(side, number, PHRASE, last, 2, 0);
        CHECK(good ? r.refusal == 0 : refuses(r, 24, 0));
    }
    CHECK(password(side, number, PHRASE, seed, SEED, 9999).refusal == 0);
    CHECK(refuses(password(side, number, PHRASE, seed, SEED, 10000), 13, 0));
    CHECK(refuses(password(side, number, PHRASE, seed, SEED, UINT32_MAX), 13, 0));
}

/* Where two things are wrong, the order 10, 11, 23, 24, 13 decides. */
static void check_password_order(uint32_t number)
{
    CHECK(refuses(password(0, number, 9, "", 0, 10000), 10, 0));
    CHECK(refuses(password(0, number, 9, "_", 1, 10000), 10, 0));
    CHECK(refuses(password(0, number, 64, "", 0, 10000), 11, 0));
    CHECK(refuses(password(0, number, 64, "_", 1, 10000), 11, 0));
    CHECK(refuses(password(0, number, 10, "_bcdefghijklmnopq", 17, 10000), 23, 0));
    CHECK(refuses(password(0, number, 10, "", 0, 10000), 23, 0));
    CHECK(refuses(password(0, number, 10, "_", 1, 10000), 24, 0));
    CHECK(refuses(lift_password(number, NULL, 0, NULL, 0, 0), 10, 0));
    CHECK(refuses(lift_password(number, phrase, PHRASE, NULL, 0, 0), 23, 0));
    CHECK(refuses(lift_password(number, NULL, 0, seed, SEED, 0), 10, 0));
}

/* 21 where nothing else is wrong, and before each of the others. */
static void check_password_unknown(uint32_t number)
{
    CHECK(refuses(password(0, number, PHRASE, seed, SEED, 0), 21, 0));
    CHECK(refuses(password(0, number, 9, seed, SEED, 0), 21, 0));
    CHECK(refuses(password(0, number, 64, seed, SEED, 0), 21, 0));
    CHECK(refuses(password(0, number, PHRASE, seed, 17, 0), 21, 0));
    CHECK(refuses(password(0, number, PHRASE, "_", 1, 0), 21, 0));
    CHECK(refuses(password(0, number, PHRASE, seed, SEED, 10000), 21, 0));
    CHECK(refuses(lift_password(number, NULL, 0, NULL, 0, UINT32_MAX), 21, 0));
}

static void check_password_large(uint32_t number)
{
    size_t len;
    uint8_t *large = beyond_32_bits(10, &len);
    memset(large, 'a', 4096);
    CHECK(refuses(lift_password(number, large, len, seed, SEED, 0), 11, 0));
    CHECK(refuses(lift_password(number, phrase, PHRASE, large, len, 0), 23, 0));
    unmap(large, len);
}

static void check_password(int at)
{
    uint32_t number = rows[at].algorithm;
    for (int side = 0; side < SIDES; side++) {
        CHECK(reads(password(side, number, PHRASE, seed, SEED, 0), rows[at].at_0));
        CHECK(reads(password(side, number, PHRASE, "tEsT", SEED, 99), rows[at].at_99));
        check_password_limits(side, number);
    }
    check_password_order(number);
    check_password_large(number);
}

void check_passwords(void)
{
    for (int at = 0; at < ALGORITHMS; at++) {
        check_digest_room(&digests[at]);
        for (int side = 0; side < SIDES; side++)
            check_digest_length(&digests[at], side);
        check_digest_large(&digests[at]);
        done(digests[at].name);
    }
    for (int at = 0; at < ALGORITHMS; at++)
        check_password(at);
    for (int at = 0; at < UNKNOWN; at++)
        check_password_unknown(unknown[at]);
    done("lift_password");
}
