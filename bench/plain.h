/* The C that the benchmark compares with. MD5: `plain` as RFC 1321 writes it,
 * and the strongest that we know, once by gcc and, where it is installed, once
 * by clang. SHA-1: the strongest that we know, by the same two. */
#ifndef PLAIN_H
#define PLAIN_H

#include <stddef.h>
#include <stdint.h>

typedef void hasher(const uint8_t *text, size_t len, uint8_t *digest);
typedef uint64_t generator(const uint8_t *phrase, size_t phrase_len,
                           const uint8_t *seed, size_t seed_len, uint32_t count);

hasher plain_md5, gcc_md5, clang_md5, gcc_sha1, clang_sha1;
generator plain_md5_password, gcc_md5_password, clang_md5_password;
generator gcc_sha1_password, clang_sha1_password;

#endif
