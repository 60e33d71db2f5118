/* What the plain C of both algorithms shares: what is hashed first, and how a
 * text ends. They differ in the order of a word's bytes, and so of the length's. */
#ifndef PADDING_H
#define PADDING_H

#include <stddef.h>
#include <stdint.h>
#include <string.h>

enum { BLOCK = 64, MOST_TEXT = 16 + 63 };
typedef enum { LOW_FIRST, HIGH_FIRST } byte_order;

/* The seed in lower case, then the pass-phrase; gives their length. */
static inline size_t seed_and_phrase(const uint8_t *phrase, size_t phrase_len, const uint8_t *seed,
                                     size_t seed_len, uint8_t text[MOST_TEXT])
{
    for (size_t i = 0; i < seed_len; i++)
        text[i] = seed[i] >= 'A' && seed[i] <= 'Z' ? seed[i] | 0x20 : seed[i];
    memcpy(text + seed_len, phrase, phrase_len);
    return seed_len + phrase_len;
}

/* What is left of a text after its whole blocks, padded to one block or two;
 * gives their length. `tail` is zeros before. */
static inline size_t padded_tail(const uint8_t *text, size_t len, byte_order order, uint8_t tail[2 * BLOCK])
{
    size_t left = len % BLOCK, end = left < BLOCK - 8 ? BLOCK : 2 * BLOCK;
    memcpy(tail, text + (len - left), left);
    tail[left] = 0x80;
    for (int i = 0; i < 8; i++)
        tail[end - 8 + (size_t)i] = (uint8_t)((uint64_t)len * 8 >> 8 * (order == LOW_FIRST ? i : 7 - i));
    return end;
}

#endif
