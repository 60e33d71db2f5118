/* The offer of a password and that of a renewal, on inputs of each kind:
 * accepted, wrong, refused. Each has the answer that is due, so that what is
 * measured is what it says; those that are answered otherwise are counted. */
#include <string.h>

#include "bench.h"
#include "lift.h"
#include "turns.h"

enum { ROOMS = 32, PLACES = 7, PLACE = 17, LAST = ROOMS - 1 };

/* Document 01's card: the passwords at count 99, of which the account keeps the
 * hash, by either algorithm. */
#define BY_MD5 0x85c43ee03857765b
#define BY_SHA1 0xc891f389b68de9ec
#define NEW_PASSWORD 0x0707070707070707

/* The account's present seed, the oldest that it remembers, and a new one that
 * is like all eight up to the last character. */
#define PRESENT "dog2dog2dog2dog1"
#define OLDEST "dog2dog2dog2dog9"
#define NEW "DOG2DOG2DOG2DOG2"

static const struct offer {
    uint32_t algorithm;
    uint8_t port;
    uint64_t password;
    uint32_t due;
} offers[] = {
    {LIFT_MD5, 0, BY_MD5, 0},
    {LIFT_SHA1, 0, BY_SHA1, 0},
    {LIFT_MD5, 0, 0, LIFT_REPLY_WRONG},
    {LIFT_MD5, 0, BY_SHA1, LIFT_REPLY_WRONG},
    {LIFT_SHA1, 0, BY_MD5, LIFT_REPLY_WRONG},
    {LIFT_SHA1, 0, UINT64_MAX, LIFT_REPLY_WRONG},
    {LIFT_MD5, 1, BY_MD5, LIFT_PORT_NOT_IN_FRONT},
    {LIFT_MD5, 2, BY_MD5, LIFT_PORT_NOT_IN_LINE},
    {LIFT_MD5, 4, BY_MD5, LIFT_PORT_UNKNOWN},
};

static const struct renewal {
    struct offer offer;
    uint16_t count;
    const uint8_t *seed;
    size_t len;
} renewals[] = {
    {{LIFT_MD5, 0, BY_MD5, 0}, 9999, BYTES(NEW)},
    {{LIFT_MD5, 0, BY_MD5, 0}, 2, BYTES("t")},
    {{LIFT_SHA1, 0, BY_SHA1, 0}, 9999, BYTES(NEW)},
    {{LIFT_SHA1, 0, BY_SHA1, 0}, 2, BYTES("t")},
    {{LIFT_MD5, 0, BY_MD5, LIFT_SEED_SAME}, 9999, BYTES(PRESENT)},
    {{LIFT_MD5, 0, BY_MD5, LIFT_SEED_SAME}, 9999, BYTES(OLDEST)},
    {{LIFT_MD5, 0, 0, LIFT_REPLY_WRONG}, 9999, BYTES(NEW)},
    {{LIFT_SHA1, 0, BY_MD5, LIFT_REPLY_WRONG}, 9999, BYTES(NEW)},
    {{LIFT_MD5, 0, BY_MD5, LIFT_COUNT_OUTSIDE}, 10000, BYTES(NEW)},
    {{LIFT_MD5, 0, BY_MD5, LIFT_COUNT_OUTSIDE}, 0, BYTES(NEW)},
    {{3, 0, BY_MD5, LIFT_ALGORITHM_UNKNOWN}, 9999, BYTES(NEW)},
    {{LIFT_MD5, 0, BY_MD5, LIFT_SEED_LENGTH}, 9999, BYTES("")},
    {{LIFT_MD5, 0, BY_MD5, LIFT_SEED_CHARACTER}, 9999, BYTES("te_st")},
    {{LIFT_MD5, 1, BY_MD5, LIFT_PORT_NOT_IN_FRONT}, 9999, BYTES(NEW)},
    {{LIFT_MD5, 4, BY_MD5, LIFT_PORT_UNKNOWN}, 9999, BYTES(NEW)},
};

static uint8_t older[ROOMS * PLACES * PLACE];
static size_t wrong;

static uint64_t stored_by(uint32_t algorithm)
{
    return algorithm == LIFT_SHA1 ? 0xe25fae0516d469ae : 0x5bbf1b9685bd80a2;
}

/* The last account's older seeds, from dog2dog2dog2dog3 on: a renewal that is
 * accepted moves them. */
static void remember_seven(void)
{
    for (size_t i = 0; i < PLACES; i++) {
        uint8_t *place = &older[(LAST * PLACES + i) * PLACE];
        place[0] = 16;
        memcpy(place + 1, PRESENT, 16);
        place[PLACE - 1] = (uint8_t)('3' + i);
    }
}

void call_offer(void)
{
    for (size_t i = 0; i < LENGTH_OF(offers); i++) {
        const struct offer *each = &offers[i];
        wrong += each->due != painted_offer(1, LAST, each->algorithm, stored_by(each->algorithm), each->port,
                                            each->password);
    }
}

void call_offer_renewal(void)
{
    for (size_t i = 0; i < LENGTH_OF(renewals); i++) {
        const struct renewal *new = &renewals[i];
        const struct offer *each = &new->offer;
        remember_seven();
        wrong += each->due != painted_offer_renewal(1, LAST, each->algorithm, stored_by(each->algorithm), each->port,
                                                    older, new->count, new->seed, new->len, NEW_PASSWORD,
                                                    each->password);
    }
}

size_t wrong_answers(void)
{
    return wrong;
}
