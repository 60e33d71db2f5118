/* SHA-1 (FIPS 180) and its chain in the strongest C that we know, with neither
 * assembler nor a compiler's own vectors: 80 steps by macro, the schedule in
 * sixteen words, the block of a chain step built from its eight bytes. What
 * counts here is the number of instructions, and that little waits for the step
 * before: Ch in three operations; of Maj what d and c say is there before b is;
 * what rotates is added last; and the compression stands in the loops that call
 * it, since 14 words of a chain step's block are constants. It checks nothing;
 * it is here to be timed. */
#include "plain.h"

#include "padding.h"

#ifdef BY_CLANG
#define BY(name) clang_##name
#else
#define BY(name) gcc_##name
#endif

#define CH(b, c, d) ((d) ^ ((b) & ((c) ^ (d))))
#define PARITY(b, c, d) ((b) ^ (c) ^ (d))
#define MAJ(b, c, d) (((c) & (d)) | ((b) & ((c) | (d))))

#define ROTATE(x, n) ((x) << (n) | (x) >> (32 - (n)))
#define STEP(f, k, a, b, c, d, e, word) \
    (e) += (word) + (k);                \
    (e) += f(b, c, d);                  \
    (e) += ROTATE(a, 5);                \
    (b) = ROTATE(b, 30)

/* Words 0 to 15 are the block's; each after them takes the place of the one
 * that is sixteen before it. */
#define W(t) w[(t) & 15]
#define EXPANDED(t) (W(t) = ROTATE(W((t) + 13) ^ W((t) + 8) ^ W((t) + 2) ^ W(t), 1))

/* The steps of each quarter: 0 to 15 and 16 to 19, 20 to 39, 40 to 59, 60 to 79. */
#define FROM_BLOCK(a, b, c, d, e, t) STEP(CH, 0x5a827999u, a, b, c, d, e, W(t))
#define FIRST(a, b, c, d, e, t) STEP(CH, 0x5a827999u, a, b, c, d, e, EXPANDED(t))
#define SECOND(a, b, c, d, e, t) STEP(PARITY, 0x6ed9eba1u, a, b, c, d, e, EXPANDED(t))
#define THIRD(a, b, c, d, e, t) STEP(MAJ, 0x8f1bbcdcu, a, b, c, d, e, EXPANDED(t))
#define FOURTH(a, b, c, d, e, t) STEP(PARITY, 0xca62c1d6u, a, b, c, d, e, EXPANDED(t))

/* Five steps, after which each register is in its own place again. */
#define FIVE(step, t)               \
    step(a, b, c, d, e, t);         \
    step(e, a, b, c, d, (t) + 1);   \
    step(d, e, a, b, c, (t) + 2);   \
    step(c, d, e, a, b, (t) + 3);   \
    step(b, c, d, e, a, (t) + 4)
#define TWENTY(step, t)   \
    FIVE(step, t);        \
    FIVE(step, (t) + 5);  \
    FIVE(step, (t) + 10); \
    FIVE(step, (t) + 15)

static inline __attribute__((always_inline)) void compress(uint32_t state[5], uint32_t w[16])
{
    uint32_t a = state[0], b = state[1], c = state[2], d = state[3], e = state[4];
    FIVE(FROM_BLOCK, 0);
    FIVE(FROM_BLOCK, 5);
    FIVE(FROM_BLOCK, 10);
    FROM_BLOCK(a, b, c, d, e, 15);
    FIRST(e, a, b, c, d, 16);
    FIRST(d, e, a, b, c, 17);
    FIRST(c, d, e, a, b, 18);
    FIRST(b, c, d, e, a, 19);
    TWENTY(SECOND, 20);
    TWENTY(THIRD, 40);
    TWENTY(FOURTH, 60);
    state[0] += a;
    state[1] += b;
    state[2] += c;
    state[3] += d;
    state[4] += e;
}

#define START {0x67452301, 0xefcdab89, 0x98badcfe, 0x10325476, 0xc3d2e1f0}

/* gcc makes one load and a swap of this on a machine with the low byte first. */
static uint32_t word_at(const uint8_t *p)
{
    return (uint32_t)p[0] << 24 | (uint32_t)p[1] << 16 | (uint32_t)p[2] << 8 | (uint32_t)p[3];
}

static inline __attribute__((always_inline)) void compress_bytes(uint32_t state[5], const uint8_t *block)
{
    uint32_t w[16];
    for (int i = 0; i < 16; i++)
        w[i] = word_at(block + 4 * i);
    compress(state, w);
}

static void digest_words(const uint8_t *text, size_t len, uint32_t state[5])
{
    uint8_t tail[2 * BLOCK] = {0};
    size_t end = padded_tail(text, len, HIGH_FIRST, tail);
    for (size_t at = 0; at + BLOCK <= len; at += BLOCK)
        compress_bytes(state, text + at);
    for (size_t at = 0; at < end; at += BLOCK)
        compress_bytes(state, tail + at);
}

void BY(sha1)(const uint8_t *text, size_t len, uint8_t *digest)
{
    uint32_t state[5] = START;
    digest_words(text, len, state);
    for (int i = 0; i < 20; i++)
        digest[i] = (uint8_t)(state[i / 4] >> (24 - 8 * (i % 4)));
}

/* RFC 2289, Appendix A: five words folded to two, each then written low byte
 * first; read again high byte first, these are the next block's first two words. */
#define FOLDED_0(state) __builtin_bswap32((state)[0] ^ (state)[2] ^ (state)[4])
#define FOLDED_1(state) __builtin_bswap32((state)[1] ^ (state)[3])

uint64_t BY(sha1_password)(const uint8_t *phrase, size_t phrase_len,
                           const uint8_t *seed, size_t seed_len, uint32_t count)
{
    uint8_t text[MOST_TEXT];
    uint32_t state[5] = START;
    digest_words(text, seed_and_phrase(phrase, phrase_len, seed, seed_len, text), state);
    uint32_t first = FOLDED_0(state), second = FOLDED_1(state);
    for (uint32_t n = 0; n < count; n++) {
        /* a chain step's block: the eight bytes, the bit after them, 64 bits long */
        uint32_t w[16] = {first, second, 0x80000000, [15] = 64};
        uint32_t next[5] = START;
        compress(next, w);
        first = FOLDED_0(next);
        second = FOLDED_1(next);
    }
    return (uint64_t)first << 32 | second;
}
