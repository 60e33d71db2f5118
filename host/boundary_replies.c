/* The boundary of plain replies, hex and words. */
#include "boundary.h"

static lift_reading reply(int side, const void *bytes, size_t len)
{
    uint8_t *text = text_at(side, 0, bytes, len);
    lift_reading r = lift_read_plain(text, len);
    CHECK(len == 0 || memcmp(text, bytes, len) == 0);
    return r;
}

static lift_reading reply_text(int side, const char *text)
{
    return reply(side, text, strlen(text));
}

static void check_read_plain(int side)
{
    uint8_t long_text[FIELD];
    CHECK(reads(reply_text(side, "FOWL KID MASH DEAD DUAL OAF"), 0x85c43ee03857765bu));
    CHECK(reads(reply_text(side, "\tfowl kid\r\nmash dead dual oaf "), 0x85c43ee03857765bu));
    CHECK(reads(reply_text(side, "85c4 3EE0 3857 765b"), 0x85c43ee03857765bu));
    CHECK(reads(reply_text(side, "a a a a a a"), 0));
    CHECK(reads(reply_text(side, "0000000000000000"), 0));
    CHECK(reads(reply_text(side, "ffffffffffffffff"), UINT64_MAX));
    CHECK(reads(reply_text(side, "YOKE YOKE YOKE YOKE YOKE YEAR"), UINT64_MAX));
    CHECK(refuses(reply_text(side, "FOWL KID MASH DEAD DUAL OAK"), 32, 0));
    CHECK(refuses(reply_text(side, "FOWL KID MASH DEAD DUAL"), 33, 0));
    CHECK(refuses(reply_text(side, "hex:85c43ee03857765b"), 33, 0)); /* no plain text */
    CHECK(refuses(reply_text(side, "word:FOWL KID MASH DEAD DUAL OAF"), 33, 0));
    CHECK(refuses(reply_text(side, "HEX:85c43ee03857765b:"), 33, 0));
    CHECK(refuses(reply_text(side, ""), 33, 0));
    CHECK(refuses(lift_read_plain(NULL, 0), 33, 0));
    for (uint32_t marks = 1; marks <= 63; marks++) {
        char text[] = "A A A A A A";
        for (int word = 1; word <= 6; word++)
            if (marks & LIFT_MARK(word))
                text[2 * (word - 1)] = 'Q'; /* no word */
        CHECK(refuses(reply_text(side, text), 31, marks));
    }
    memset(long_text, ' ', sizeof long_text);
    memcpy(long_text + 117, "a a a a a a", 11);
    CHECK(reads(reply(side, long_text, 128), 0));
    CHECK(refuses(reply(side, long_text, 127), 33, 0));
    CHECK(refuses(reply(side, long_text, 129), 30, 0));
    CHECK(refuses(reply(side, long_text, sizeof long_text), 30, 0));
}

static void check_read_plain_large(void)
{
    size_t len;
    uint8_t *large = beyond_32_bits(16, &len);
    memset(large, '0', 128);
    CHECK(refuses(lift_read_plain(large, len), 30, 0));
    unmap(large, len);
}

static void check_bytes(uint64_t password, const uint8_t bytes[8])
{
    uint8_t *buf = lent();
    lift_bytes_of(password, buf);
    CHECK(touched_only(8) && memcmp(buf, bytes, 8) == 0);
    for (int side = 0; side < SIDES; side++) {
        CHECK(lift_password_of(text_at(side, 0, bytes, 8)) == password);
        uint8_t *at = text_at(side, 0, "\0\0\0\0\0\0\0", 8);
        lift_bytes_of(password, at);
        CHECK(memcmp(at, bytes, 8) == 0);
    }
}

void check_replies(void)
{
    for (int side = 0; side < SIDES; side++)
        check_read_plain(side);
    check_read_plain_large();
    done("lift_read_plain");
    check_writer(lift_write_hex, 0, "0000000000000000");
    check_writer(lift_write_hex, UINT64_MAX, "ffffffffffffffff");
    check_writer(lift_write_hex, 0x85c43ee03857765bu, "85c43ee03857765b");
    done("lift_write_hex");
    check_writer(lift_write_words, 0, "A A A A A A");
    check_writer(lift_write_words, UINT64_MAX, "YOKE YOKE YOKE YOKE YOKE YEAR");
    check_writer(lift_write_words, 0x85c43ee03857765bu, "FOWL KID MASH DEAD DUAL OAF");
    done("lift_write_words");
    check_bytes(0, (const uint8_t[8]){0});
    check_bytes(0x0102030405060708u, (const uint8_t[8]){1, 2, 3, 4, 5, 6, 7, 8});
    check_bytes(UINT64_MAX, (const uint8_t[8]){255, 255, 255, 255, 255, 255, 255, 255});
    done("lift_password_of, lift_bytes_of");
}
