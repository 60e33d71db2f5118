/* The boundary of extended replies that are written. */
#include "boundary.h"

/* 01's password for count 99, and a new one. */
static const uint64_t present = 0x85c43ee03857765bu, fresh = 0xc3393c088789b0afu;
static const uint8_t *const seed = (const uint8_t *)"ke1235";
static const uint8_t *const letters = (const uint8_t *)"_bcdefghijklmnopq";
enum { SEED = 6, LONGEST = 96 };
static const uint32_t inits[] = {LIFT_INIT_HEX, LIFT_INIT_WORD};
/* Numbers of no type, some of which are one's in their lowest byte or half. */
static const uint32_t no_types[] = {0, 5, 6, 255, 256, 257, 258, 259, 260, 65537, 65540, (uint32_t)1 << 31, UINT32_MAX};

static lift_written as_hex(uint64_t password, uint8_t *buf, size_t buf_len)
{
    return lift_write_extended(LIFT_HEX, password, 0, 0, NULL, 0, 0, buf, buf_len);
}

static lift_written as_word(uint64_t password, uint8_t *buf, size_t buf_len)
{
    return lift_write_extended(LIFT_WORD, password, 0, 0, NULL, 0, 0, buf, buf_len);
}

static lift_written as_init_hex(uint64_t password, uint8_t *buf, size_t buf_len)
{
    return lift_write_extended(LIFT_INIT_HEX, password, LIFT_MD5, 499, seed, SEED, fresh, buf, buf_len);
}

static lift_written as_init_word(uint64_t password, uint8_t *buf, size_t buf_len)
{
    return lift_write_extended(LIFT_INIT_WORD, password, LIFT_SHA1, 9999, letters + 1, 16, UINT64_MAX, buf, buf_len);
}

/* RFC 2243's own example, whose passwords have blanks there. */
static lift_written as_example(uint64_t password, uint8_t *buf, size_t buf_len)
{
    return lift_write_extended(LIFT_INIT_HEX, password, LIFT_MD5, 499, seed, SEED, 0x3712dcb4aa5316c1u, buf, buf_len);
}

static void check_written(void)
{
    check_writer(as_hex, present, "hex:85c43ee03857765b");
    check_writer(as_hex, 0, "hex:0000000000000000");
    check_writer(as_word, present, "word:FOWL KID MASH DEAD DUAL OAF");
    check_writer(as_word, 0, "word:A A A A A A");
    check_writer(as_init_hex, present, "init-hex:85c43ee03857765b:md5 499 ke1235:c3393c088789b0af");
    check_writer(as_example, 0x5bf075d9959d036fu, "init-hex:5bf075d9959d036f:md5 499 ke1235:3712dcb4aa5316c1");
    check_writer(as_init_word, UINT64_MAX,
                 "init-word:YOKE YOKE YOKE YOKE YOKE YEAR:sha1 9999 bcdefghijklmnopq:YOKE YOKE YOKE YOKE YOKE YEAR");
    CHECK(wrote(as_init_word(UINT64_MAX, lent(), LONGEST), LONGEST));
    CHECK(refused(as_init_word(UINT64_MAX, lent(), LONGEST - 1), 40));
}

/* What belongs to a renewal isn't looked at for a login. */
static void check_logins(uint32_t type, size_t len)
{
    for (int at = 0; at < UNKNOWN; at++)
        CHECK(wrote(lift_write_extended(type, present, unknown[at], unknown[at], letters, 17, fresh, lent(), LONGEST), len));
    CHECK(wrote(lift_write_extended(type, present, LIFT_MD5, 499, NULL, 0, fresh, lent(), len), len));
    CHECK(refused(lift_write_extended(type, present, 0, 0, NULL, 0, 0, lent(), len - 1), 40));
}

/* The seed as it is given, and only read. */
static lift_written written(int side, uint32_t type, uint32_t algorithm_number, uint32_t count, const uint8_t *bytes,
                            size_t len, size_t room)
{
    uint8_t *text = text_at(side, 0, bytes, len);
    lift_written w = lift_write_extended(type, present, algorithm_number, count, text, len, fresh, lent(), room);
    CHECK(len == 0 || memcmp(text, bytes, len) == 0);
    return w;
}

/* 51, 21, 23, 24, 40 in that order. */
static void check_order(int side, uint32_t type)
{
    CHECK(refused(written(side, type, 3, 1, letters, 17, 0), 51));
    CHECK(refused(written(side, type, 3, 2, letters, 17, 0), 21));
    CHECK(refused(written(side, type, LIFT_MD5, 2, letters, 17, 0), 23));
    CHECK(refused(written(side, type, LIFT_MD5, 2, letters, 0, 0), 23));
    CHECK(refused(written(side, type, LIFT_MD5, 2, letters, 16, 0), 24));
    CHECK(refused(written(side, type, LIFT_MD5, 2, letters + 1, 16, 0), 40));
    CHECK(written(side, type, LIFT_MD5, 2, letters + 1, 16, LONGEST).refusal == 0);
}

static void check_counts(uint32_t type)
{
    static const uint32_t outside[] = {0, 1, 10000, 65536, 65538, ((uint32_t)1 << 16) + 499, (uint32_t)1 << 31, UINT32_MAX};
    for (size_t i = 0; i < sizeof outside / sizeof *outside; i++)
        CHECK(refused(written(0, type, LIFT_MD5, outside[i], seed, SEED, LONGEST), 51));
    CHECK(written(0, type, LIFT_MD5, 2, seed, SEED, LONGEST).refusal == 0);
    CHECK(written(0, type, LIFT_MD5, 9999, seed, SEED, LONGEST).refusal == 0);
}

static void check_seeds(int side, uint32_t type)
{
    for (size_t len = 0; len <= 16; len++) {
        lift_written w = written(side, type, LIFT_SHA1, 499, letters + 1, len, LONGEST);
        CHECK(len < 1 ? refused(w, 23) : w.refusal == 0);
    }
    for (int byte = 0; byte < 256; byte++) {
        uint8_t last[2] = {'a', (uint8_t)byte};
        bool good = (byte >= '0' && byte <= '9') || (byte >= 'A' && byte <= 'Z') || (byte >= 'a' && byte <= 'z');
        lift_written w = written(side, type, LIFT_MD5, 499, last, 2, LONGEST);
        CHECK(good ? w.refusal == 0 : refused(w, 24));
    }
}

static void check_renewals(uint32_t type)
{
    size_t len;
    for (int side = 0; side < SIDES; side++) {
        check_order(side, type);
        check_seeds(side, type);
    }
    check_counts(type);
    for (int at = 0; at < UNKNOWN; at++)
        CHECK(refused(written(0, type, unknown[at], 499, letters, 17, LONGEST), 21));
    CHECK(refused(lift_write_extended(type, present, LIFT_MD5, 499, NULL, 0, fresh, lent(), LONGEST), 23));
    CHECK(refused(lift_write_extended(type, present, LIFT_MD5, 0, NULL, 0, fresh, NULL, 0), 51));
    uint8_t *large = beyond_32_bits(SEED, &len);
    memcpy(large, seed, SEED);
    CHECK(refused(lift_write_extended(type, present, LIFT_MD5, 499, large, len, fresh, lent(), LONGEST), 23));
    unmap(large, len);
}

/* 34 where nothing else is wrong, and before each of the others. */
static void check_types(void)
{
    for (size_t i = 0; i < sizeof no_types / sizeof *no_types; i++) {
        CHECK(refused(written(0, no_types[i], LIFT_MD5, 499, seed, SEED, LONGEST), 34));
        CHECK(refused(written(0, no_types[i], 3, 1, letters, 17, 0), 34));
        CHECK(refused(lift_write_extended(no_types[i], present, 0, UINT32_MAX, NULL, 0, fresh, NULL, 0), 34));
    }
}

void check_extended(void)
{
    check_written();
    check_logins(LIFT_HEX, strlen("hex:85c43ee03857765b"));
    check_logins(LIFT_WORD, strlen("word:FOWL KID MASH DEAD DUAL OAF"));
    for (size_t i = 0; i < sizeof inits / sizeof *inits; i++)
        check_renewals(inits[i]);
    check_types();
    done("lift_write_extended");
}
