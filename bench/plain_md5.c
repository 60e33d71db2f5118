/* MD5 and the chain in plain C, as RFC 1321 writes it: the four rounds as 64
 * steps by macro, the block of a chain step built from its eight bytes. It
 * checks nothing; it is here to be timed. */
#include "plain.h"

#include "padding.h"

#ifdef STRONGEST /* strongest_md5.c has why */
#define F(x, y, z) ((z) ^ ((x) & ((y) ^ (z))))
#define G(x, y, z) (((y) & ~(z)) + ((x) & (z)))
#define H(x, y, z) ((x) ^ ((y) ^ (z)))
#define SUM(a, f, x, t) (((a) + (x) + (t)) + (f))
#define INLINED inline __attribute__((always_inline))
#else
#define F(x, y, z) (((x) & (y)) | (~(x) & (z)))
#define G(x, y, z) (((x) & (z)) | ((y) & ~(z)))
#define H(x, y, z) ((x) ^ (y) ^ (z))
#define SUM(a, f, x, t) ((a) + (f) + (x) + (t))
#define INLINED
#endif
#define I(x, y, z) ((y) ^ ((x) | ~(z)))

#define ROTATE(x, n) ((x) << (n) | (x) >> (32 - (n)))
#define STEP(f, a, b, c, d, k, s, t)   \
    (a) = SUM(a, f(b, c, d), m[k], t); \
    (a) = ROTATE(a, s) + (b)

/* Four steps with the four shifts of a round. */
#define FOUR(f, k0, k1, k2, k3, s0, s1, s2, s3, t0, t1, t2, t3) \
    STEP(f, a, b, c, d, k0, s0, t0);                            \
    STEP(f, d, a, b, c, k1, s1, t1);                            \
    STEP(f, c, d, a, b, k2, s2, t2);                            \
    STEP(f, b, c, d, a, k3, s3, t3)

static INLINED void compress(uint32_t state[4], const uint32_t m[16])
{
    uint32_t a = state[0], b = state[1], c = state[2], d = state[3];
    FOUR(F, 0, 1, 2, 3, 7, 12, 17, 22, 0xd76aa478, 0xe8c7b756, 0x242070db, 0xc1bdceee);
    FOUR(F, 4, 5, 6, 7, 7, 12, 17, 22, 0xf57c0faf, 0x4787c62a, 0xa8304613, 0xfd469501);
    FOUR(F, 8, 9, 10, 11, 7, 12, 17, 22, 0x698098d8, 0x8b44f7af, 0xffff5bb1, 0x895cd7be);
    FOUR(F, 12, 13, 14, 15, 7, 12, 17, 22, 0x6b901122, 0xfd987193, 0xa679438e, 0x49b40821);
    FOUR(G, 1, 6, 11, 0, 5, 9, 14, 20, 0xf61e2562, 0xc040b340, 0x265e5a51, 0xe9b6c7aa);
    FOUR(G, 5, 10, 15, 4, 5, 9, 14, 20, 0xd62f105d, 0x02441453, 0xd8a1e681, 0xe7d3fbc8);
    FOUR(G, 9, 14, 3, 8, 5, 9, 14, 20, 0x21e1cde6, 0xc33707d6, 0xf4d50d87, 0x455a14ed);
    FOUR(G, 13, 2, 7, 12, 5, 9, 14, 20, 0xa9e3e905, 0xfcefa3f8, 0x676f02d9, 0x8d2a4c8a);
    FOUR(H, 5, 8, 11, 14, 4, 11, 16, 23, 0xfffa3942, 0x8771f681, 0x6d9d6122, 0xfde5380c);
    FOUR(H, 1, 4, 7, 10, 4, 11, 16, 23, 0xa4beea44, 0x4bdecfa9, 0xf6bb4b60, 0xbebfbc70);
    FOUR(H, 13, 0, 3, 6, 4, 11, 16, 23, 0x289b7ec6, 0xeaa127fa, 0xd4ef3085, 0x04881d05);
    FOUR(H, 9, 12, 15, 2, 4, 11, 16, 23, 0xd9d4d039, 0xe6db99e5, 0x1fa27cf8, 0xc4ac5665);
    FOUR(I, 0, 7, 14, 5, 6, 10, 15, 21, 0xf4292244, 0x432aff97, 0xab9423a7, 0xfc93a039);
    FOUR(I, 12, 3, 10, 1, 6, 10, 15, 21, 0x655b59c3, 0x8f0ccc92, 0xffeff47d, 0x85845dd1);
    FOUR(I, 8, 15, 6, 13, 6, 10, 15, 21, 0x6fa87e4f, 0xfe2ce6e0, 0xa3014314, 0x4e0811a1);
    FOUR(I, 4, 11, 2, 9, 6, 10, 15, 21, 0xf7537e82, 0xbd3af235, 0x2ad7d2bb, 0xeb86d391);
    state[0] += a;
    state[1] += b;
    state[2] += c;
    state[3] += d;
}

#define START {0x67452301, 0xefcdab89, 0x98badcfe, 0x10325476}

/* gcc makes one load of this on a machine with the low byte first. */
static uint32_t word_at(const uint8_t *p)
{
    return (uint32_t)p[0] | (uint32_t)p[1] << 8 | (uint32_t)p[2] << 16 | (uint32_t)p[3] << 24;
}

static INLINED void compress_bytes(uint32_t state[4], const uint8_t *block)
{
    uint32_t m[16];
    for (int i = 0; i < 16; i++)
        m[i] = word_at(block + 4 * i);
    compress(state, m);
}

static void digest_words(const uint8_t *text, size_t len, uint32_t state[4])
{
    uint8_t tail[2 * BLOCK] = {0};
    size_t end = padded_tail(text, len, LOW_FIRST, tail);
    for (size_t at = 0; at + BLOCK <= len; at += BLOCK)
        compress_bytes(state, text + at);
    for (size_t at = 0; at < end; at += BLOCK)
        compress_bytes(state, tail + at);
}

void plain_md5(const uint8_t *text, size_t len, uint8_t *digest)
{
    uint32_t state[4] = START;
    digest_words(text, len, state);
    for (int i = 0; i < 16; i++)
        digest[i] = (uint8_t)(state[i / 4] >> 8 * (i % 4));
}

/* Eight bytes as two words, low byte first; a password is the same bytes. */
static uint64_t password_of(uint32_t low, uint32_t high)
{
    return (uint64_t)__builtin_bswap32(low) << 32 | __builtin_bswap32(high);
}

uint64_t plain_md5_password(const uint8_t *phrase, size_t phrase_len,
                            const uint8_t *seed, size_t seed_len, uint32_t count)
{
    uint8_t text[MOST_TEXT];
    uint32_t state[4] = START;
    digest_words(text, seed_and_phrase(phrase, phrase_len, seed, seed_len, text), state);
    uint32_t low = state[0] ^ state[2], high = state[1] ^ state[3];
    for (uint32_t n = 0; n < count; n++) {
        /* a chain step's block: the eight bytes, the bit after them, 64 bits long */
        const uint32_t m[16] = {low, high, 0x80, [14] = 64};
        uint32_t next[4] = START;
        compress(next, m);
        low = next[0] ^ next[2];
        high = next[1] ^ next[3];
    }
    return password_of(low, high);
}
