/* The C boundary: every function of lift.h at its edges. Built with all
 * warnings as errors and run under AddressSanitizer and
 * UndefinedBehaviorSanitizer; the first check that fails ends it with status 1. */
#define _DEFAULT_SOURCE
#include "boundary.h"

#include <stdio.h>
#include <stdlib.h>
#include <sys/mman.h>

const algorithm algorithms[ALGORITHMS] = {{LIFT_MD5, "md5"}, {LIFT_SHA1, "sha1"}};
const uint32_t unknown[UNKNOWN] = {0, 3, 4, 255, 256, 257, 258, 65537, 65538, (uint32_t)1 << 31, UINT32_MAX};

static int checks;

void check(bool holds, const char *what, const char *file, int line)
{
    checks++;
    if (!holds) {
        printf("%s:%d: does not hold: %s\n", file, line, what);
        exit(1);
    }
}

void done(const char *function)
{
    printf("%s: %d checks\n", function, checks);
    checks = 0;
}

uint8_t *text_at(int side, int field, const void *bytes, size_t len)
{
    uint8_t *at = side == 0 ? last_of(field, len) : first_of(field);
    if (len > 0)
        memcpy(at, bytes, len);
    return at;
}

uint8_t *beyond_32_bits(size_t low, size_t *len)
{
    *len = ((size_t)1 << 32) + low;
    uint8_t *at = mmap(NULL, *len, PROT_READ | PROT_WRITE,
                       MAP_PRIVATE | MAP_ANONYMOUS | MAP_NORESERVE, -1, 0);
    CHECK(at != MAP_FAILED);
    return at;
}

void unmap(uint8_t *region, size_t len)
{
    munmap(region, len);
}

bool wrote(lift_written w, size_t written)
{
    return w.refusal == 0 && w.written == written && touched_only(written);
}

bool refused(lift_written w, uint32_t number)
{
    return w.refusal == number && w.written == 0 && touched_only(0);
}

bool reads(lift_reading r, uint64_t password)
{
    return r.refusal == 0 && r.marks == 0 && r.password == password;
}

bool refuses(lift_reading r, uint32_t number, uint32_t marks)
{
    return r.refusal == number && r.marks == marks && r.password == 0;
}

void check_writer(lift_written (*write)(uint64_t, uint8_t *, size_t),
                  uint64_t password, const char *text)
{
    size_t len = strlen(text), large_len;
    for (size_t room = 0; room <= len + 8; room++) {
        uint8_t *buf = lent();
        lift_written w = write(password, buf, room);
        CHECK(room < len ? refused(w, 40) : wrote(w, len));
        CHECK(room < len || memcmp(buf, text, len) == 0);
    }
    lent();
    CHECK(refused(write(password, NULL, 0), 40));
    for (int side = 0; side < SIDES; side++) {
        uint8_t *buf = side == 0 ? last_of(0, len) : first_of(0);
        CHECK(write(password, buf, len).written == len && memcmp(buf, text, len) == 0);
    }
    uint8_t *large = beyond_32_bits(0, &large_len);
    CHECK(write(password, large, large_len).written == len);
    CHECK(memcmp(large, text, len) == 0 && large[len] == 0);
    unmap(large, large_len);
}

int main(void)
{
    make_fields();
    check_passwords();
    check_replies();
    check_texts();
    check_extended();
    check_challenges();
    return 0;
}
