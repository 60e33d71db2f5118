/* The generator and the digests, under each algorithm: 9,999 chain steps and
 * 4,096 bytes against everybody else's, and how the time of both grows up to
 * there. */
#include <stdio.h>
#include <string.h>

#include "bench.h"
#include "heimdal.h"
#include "lift.h"
#include "plain.h"

/* A timing takes about as long whatever the count or the length: it goes through
 * this many chain steps or blocks. */
enum { COUNT = 9999, TEXT = 4096, STEPS = 10000, BLOCKS = 6500, MOST_DIGEST = 20 };

static const uint32_t counts[] = {0, 10, 100, 1000, COUNT};
/* on both sides of where the length takes a block of its own */
static const size_t lengths[] = {0, 8, 55, 56, 64, 512, TEXT};

static const char phrase[] = "This is a test.", seed[] = "test";
static uint8_t text[TEXT];

#define PHRASE_AND_SEED \
    (const uint8_t *)phrase, strlen(phrase), (const uint8_t *)seed, strlen(seed)

static uint64_t proved_md5_password(const uint8_t *its_phrase, size_t phrase_len,
                                    const uint8_t *its_seed, size_t seed_len, uint32_t count)
{
    return lift_password(LIFT_MD5, its_phrase, phrase_len, its_seed, seed_len, count).password;
}

static uint64_t proved_sha1_password(const uint8_t *its_phrase, size_t phrase_len,
                                     const uint8_t *its_seed, size_t seed_len, uint32_t count)
{
    return lift_password(LIFT_SHA1, its_phrase, phrase_len, its_seed, seed_len, count).password;
}

static void proved_md5(const uint8_t *bytes, size_t len, uint8_t *digest)
{
    lift_md5(bytes, len, digest, 16);
}

static void proved_sha1(const uint8_t *bytes, size_t len, uint8_t *digest)
{
    lift_sha1(bytes, len, digest, 20);
}

/* It wants texts that end in NUL, as these do. */
static uint64_t heimdal_chain(const heimdal_algorithm *its, const uint8_t *its_phrase,
                              const uint8_t *its_seed, uint32_t count)
{
    char key[8];
    its->init(key, (const char *)its_phrase, (const char *)its_seed);
    for (uint32_t n = 0; n < count; n++)
        its->next(key);
    return password_of_key((const unsigned char *)key);
}

static uint64_t heimdal_md5_password(const uint8_t *its_phrase, size_t phrase_len,
                                     const uint8_t *its_seed, size_t seed_len, uint32_t count)
{
    (void)phrase_len, (void)seed_len;
    return heimdal_chain(heimdal->md5, its_phrase, its_seed, count);
}

static uint64_t heimdal_sha1_password(const uint8_t *its_phrase, size_t phrase_len,
                                      const uint8_t *its_seed, size_t seed_len, uint32_t count)
{
    (void)phrase_len, (void)seed_len;
    return heimdal_chain(heimdal->sha1, its_phrase, its_seed, count);
}

typedef struct {
    const char *whose;
    generator *password;
    hasher *digest;
} subject;

/* Heimdal is the last, since it may not be there; its digests are not timed by themselves. */
static const subject md5_subjects[] = {
    {"proved", proved_md5_password, proved_md5},
    {"plain", plain_md5_password, plain_md5},
    {"gcc", gcc_md5_password, gcc_md5},
#ifdef WITH_CLANG
    {"clang", clang_md5_password, clang_md5},
#endif
    {"heimdal", heimdal_md5_password, NULL},
};

static const subject sha1_subjects[] = {
    {"proved", proved_sha1_password, proved_sha1},
    {"gcc", gcc_sha1_password, gcc_sha1},
#ifdef WITH_CLANG
    {"clang", clang_sha1_password, clang_sha1},
#endif
    {"heimdal", heimdal_sha1_password, NULL},
};

/* An algorithm: its digest's length, the digest of `abc` as its standard prints
 * it, and who is timed; the first `hashers` of them have a digest. */
typedef struct {
    const char *name;
    size_t digest_len;
    const char *of_abc;
    const subject *subjects;
    size_t hashers;
} algorithm;

static const algorithm algorithms[] = {
    {"md5", 16, "\x90\x01\x50\x98\x3c\xd2\x4f\xb0\xd6\x96\x3f\x7d\x28\xe1\x7f\x72",
     md5_subjects, LENGTH_OF(md5_subjects) - 1},
    {"sha1", 20, "\xa9\x99\x3e\x36\x47\x06\x81\x6a\xba\x3e\x25\x71\x78\x50\xc2\x6c\x9c\xd0\xd8\x9d",
     sha1_subjects, LENGTH_OF(sha1_subjects) - 1},
};

static size_t generators(const algorithm *its)
{
    return heimdal == NULL ? its->hashers : its->hashers + 1;
}

/* Counts from 0 to the last, and not each of them. */
static void check_generator(const subject *proved, const subject *other)
{
    for (uint32_t count = 0; count <= COUNT; count += 101)
        same(other->password(PHRASE_AND_SEED, count) == proved->password(PHRASE_AND_SEED, count),
             other->whose);
}

static void check_digests(const algorithm *its, const subject *other)
{
    uint8_t others[MOST_DIGEST], proved[MOST_DIGEST];
    for (size_t len = 0; len <= TEXT; len++) {
        other->digest(text, len, others);
        its->subjects[0].digest(text, len, proved);
        same(memcmp(others, proved, its->digest_len) == 0, other->whose);
    }
    other->digest((const uint8_t *)"abc", 3, others);
    same(memcmp(others, its->of_abc, its->digest_len) == 0, "the digest of abc");
}

static void make_text(void)
{
    for (size_t i = 0; i < TEXT; i++)
        text[i] = (uint8_t)(i * 31 + 7);
}

static void check_algorithm(const algorithm *its)
{
    for (size_t i = 1; i < generators(its); i++) {
        check_generator(&its->subjects[0], &its->subjects[i]);
        if (i < its->hashers)
            check_digests(its, &its->subjects[i]);
    }
}

void check_hashing(void)
{
    make_text();
    for (size_t i = 0; i < LENGTH_OF(algorithms); i++)
        check_algorithm(&algorithms[i]);
}

/* The chain alone: a password at COUNT less one at count 0. */
static void time_chain(const algorithm *its, const subject *one)
{
    char what[32];
    double start = now();
    sink = one->password(PHRASE_AND_SEED, 0);
    double middle = now();
    sink = one->password(PHRASE_AND_SEED, COUNT);
    double end = now();
    snprintf(what, sizeof what, "%s-chain", its->name);
    timed(what, one->whose, end - middle - (middle - start), COUNT);
}

/* One call at a count, the first hash and what is checked included. */
static void time_password(const algorithm *its, const subject *one, uint32_t count)
{
    char what[32];
    uint32_t times = STEPS / (count + 1);
    double start = now();
    for (uint32_t i = 0; i < times; i++)
        sink = one->password(PHRASE_AND_SEED, count);
    double end = now();
    snprintf(what, sizeof what, "%s-password-%u", its->name, (unsigned)count);
    timed(what, one->whose, (end - start) / times, count);
}

static void time_digest(const algorithm *its, const subject *one, size_t len)
{
    char what[32];
    uint8_t digest[MOST_DIGEST];
    /* after the text come a bit and the length in eight bytes */
    size_t blocks = (len + 8) / 64 + 1, times = BLOCKS / blocks;
    double start = now();
    for (size_t i = 0; i < times; i++) {
        one->digest(text, len, digest);
        sink = digest[0];
    }
    double end = now();
    snprintf(what, sizeof what, "%s-digest-%zu", its->name, len);
    timed(what, one->whose, (end - start) / (double)times, blocks);
}

static void time_chains(const algorithm *its, size_t round)
{
    for (size_t k = 0; k < generators(its); k++)
        time_chain(its, &its->subjects[rotated(round, k, generators(its))]);
}

static void time_passwords(const algorithm *its, size_t round, uint32_t count)
{
    for (size_t k = 0; k < its->hashers; k++)
        time_password(its, &its->subjects[rotated(round, k, its->hashers)], count);
}

static void time_digests(const algorithm *its, size_t round, size_t len)
{
    for (size_t k = 0; k < its->hashers; k++)
        time_digest(its, &its->subjects[rotated(round, k, its->hashers)], len);
}

static void time_algorithm(const algorithm *its, size_t round)
{
    time_chains(its, round);
    for (size_t i = 0; i < LENGTH_OF(counts); i++)
        time_passwords(its, round, counts[rotated(round, i, LENGTH_OF(counts))]);
    for (size_t i = 0; i < LENGTH_OF(lengths); i++)
        time_digests(its, round, lengths[rotated(round, i, LENGTH_OF(lengths))]);
}

void time_hashing(size_t round)
{
    for (size_t i = 0; i < LENGTH_OF(algorithms); i++)
        time_algorithm(&algorithms[rotated(round, i, LENGTH_OF(algorithms))], round);
}
