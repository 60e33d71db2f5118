/* The stack of the offer of a password and of that of a renewal, which C can't
 * call: callers of them in the crate `painted`, and the inputs that stack.c has
 * them run on. What reads a text before them is among the functions for C. */
#ifndef TURNS_H
#define TURNS_H

#include <stddef.h>
#include <stdint.h>

/* A text as it is lent: where it is, and how long. */
#define BYTES(literal) (const uint8_t *)(literal), sizeof(literal) - 1

/* Each has a table of 32 accounts with that algorithm and that stored password,
 * makes its call that many times, and gives the last answer: 0, or the number
 * of the refusal. A renewal is to the account's own algorithm, by the number
 * that is given. */
uint32_t painted_offer(uint32_t times, uint8_t room, uint32_t algorithm, uint64_t stored, uint8_t port,
                       uint64_t password);
uint32_t painted_offer_renewal(uint32_t times, uint8_t room, uint32_t algorithm, uint64_t stored, uint8_t port,
                               uint8_t older[3808], uint16_t count, const uint8_t *seed, size_t seed_len,
                               uint64_t new_password, uint64_t password);

void call_offer(void);
void call_offer_renewal(void);

/* How many of the calls so far weren't answered as they should be. */
size_t wrong_answers(void);

#endif
