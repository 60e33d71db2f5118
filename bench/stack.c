/* The stack that each exported function takes: it runs on a painted stack, and
 * the deepest byte whose paint is gone tells how far down it went. Prints a
 * line for each function: its name, bytes from the top. Behind them come the
 * callers of the two offers (turns.h), and how many of their calls weren't
 * answered as they should be.
 *
 * The bytes from the top include what the caller took here. sizes.py builds
 * this program a second time with every exported name an alias of `nothing`,
 * and subtracts: what is left is taken below a function's return address. */
#define _DEFAULT_SOURCE
#include <stdio.h>
#include <string.h>
#include <ucontext.h>

#include "bench.h"
#include "lift.h"
#include "turns.h"

enum { STACK = 256 * 1024, ROOM = 4097 };

void nothing(void);

void nothing(void)
{
}

static _Alignas(64) uint8_t stack[STACK];
static uint8_t bytes[ROOM], buf[ROOM], card[99 * 52];

/* On both sides of where padding takes another block, and one too long. */
static const size_t lengths[] = {0, 55, 56, 64, 119, 120, 4096, 4097};

static void call_md5(void)
{
    for (size_t i = 0; i < LENGTH_OF(lengths); i++)
        lift_md5(bytes, lengths[i], buf, 16);
    lift_md5(bytes, 64, buf, 15);
}

static void call_sha1(void)
{
    for (size_t i = 0; i < LENGTH_OF(lengths); i++)
        lift_sha1(bytes, lengths[i], buf, 20);
    lift_sha1(bytes, 64, buf, 19);
}

/* Both, and a number that is none. */
static const uint32_t algorithms[] = {LIFT_MD5, LIFT_SHA1, 3};

/* Shortest and longest inputs, a seed in upper case, each refusal. */
static void call_password_by(uint32_t algorithm)
{
    static const uint32_t counts[] = {0, 1, 2, 100, 9999, 10000};
    for (size_t i = 0; i < LENGTH_OF(counts); i++) {
        lift_password(algorithm, bytes, 10, BYTES("t"), counts[i]);
        lift_password(algorithm, bytes, 63, BYTES("ABCDEFGHijkl6789"), counts[i]);
    }
    lift_password(algorithm, bytes, 9, BYTES("test"), 1);
    lift_password(algorithm, bytes, 64, BYTES("test"), 1);
    lift_password(algorithm, bytes, 10, BYTES(""), 1);
    lift_password(algorithm, bytes, 10, BYTES("te st"), 1);
}

static void call_password(void)
{
    for (size_t i = 0; i < LENGTH_OF(algorithms); i++)
        call_password_by(algorithms[i]);
}

/* Words and hex in both cases and with white space, each refusal. */
static const char *const plain[] = {
    "INCH SEA ANNE LONG AHEM TOUR",
    "\t inch sea  anne\r\nlong ahem tour \n",
    "A A A A A A",
    "9e876134d90499dd",
    " 9E87 6134 D904 99DD ",
    "INCH SEA ANNE LONG AHEM TOUT",
    "XQ SEA ANNE LONG AHEM TOUR",
    "INCH SEA ANNE LONG AHEM ZZZZ",
    "INCH SEA ANNE LONG AHEM",
    "9e876134d90499d",
    "",
};

static void call_read_plain(void)
{
    for (size_t i = 0; i < LENGTH_OF(plain); i++)
        lift_read_plain((const uint8_t *)plain[i], strlen(plain[i]));
    lift_read_plain(bytes, 128);
    lift_read_plain(bytes, 129);
}

#define SEA "INCH SEA ANNE LONG AHEM TOUR"
#define DIGITS "9e876134d90499dd"
#define BLANKS_64 "                                                                "

/* Each type, the longest renewal, values that nobody would take, each refusal. */
static const char *const extended[] = {
    "hex:" DIGITS,
    "word:" SEA,
    "word:\t inch sea  anne\r\nlong ahem tour \n" BLANKS_64 BLANKS_64,
    "init-hex:" DIGITS ":md5 2 t:" DIGITS,
    "init-word:" SEA BLANKS_64 BLANKS_64 ":sha1 9999 ABCDEFGHijkl6789:" SEA "                                  ",
    "init-hex:" DIGITS ":x y " BLANKS_64 "A Seed" BLANKS_64 "z:" DIGITS,
    "init-word:" SEA "::" SEA,
    "HEX:" DIGITS,
    "hex:" DIGITS ":",
    "init-word:" SEA ":md5 2 t:XQ SEA ANNE LONG AHEM TOUR",
    "init-word:XQ SEA ANNE LONG AHEM ZZZZ:md5 2 t:" SEA,
    "init-word:" SEA ":md5 2 t:INCH SEA ANNE LONG AHEM TOUT",
    "word:" DIGITS,
    "hex:" BLANKS_64 BLANKS_64 BLANKS_64 BLANKS_64,
};

static void call_read_reply(void)
{
    for (size_t i = 0; i < LENGTH_OF(plain); i++)
        lift_read_reply((const uint8_t *)plain[i], strlen(plain[i]));
    for (size_t i = 0; i < LENGTH_OF(extended); i++)
        lift_read_reply((const uint8_t *)extended[i], strlen(extended[i]));
    lift_read_reply(bytes, 128);
    lift_read_reply(bytes, 129);
}

static const uint64_t passwords[] = {0, 1, 0x9e876134d90499dd, UINT64_MAX};

/* Short words and long ones, room and none. */
static void call_write_words(void)
{
    for (size_t i = 0; i < LENGTH_OF(passwords); i++) {
        lift_write_words(passwords[i], buf, 29);
        lift_write_words(passwords[i], buf, 10);
    }
}

static void call_write_hex(void)
{
    for (size_t i = 0; i < LENGTH_OF(passwords); i++) {
        lift_write_hex(passwords[i], buf, 16);
        lift_write_hex(passwords[i], buf, 15);
    }
}

/* Each type, with short passwords and long ones, room and none; each refusal. */
static void call_write_extended(void)
{
    for (uint32_t type = 0; type <= LIFT_INIT_WORD + 1; type++)
        for (size_t i = 0; i < LENGTH_OF(passwords); i++) {
            lift_write_extended(type, passwords[i], LIFT_SHA1, 9999, BYTES("ABCDEFGHijkl6789"), passwords[i], buf, 96);
            lift_write_extended(type, passwords[i], LIFT_MD5, 2, BYTES("t"), passwords[i], buf, 10);
            lift_write_extended(type, passwords[i], LIFT_MD5, 1, BYTES("t"), 0, buf, 96);
            lift_write_extended(type, passwords[i], 3, 2, BYTES("t"), 0, buf, 96);
            lift_write_extended(type, passwords[i], LIFT_MD5, 2, BYTES(""), 0, buf, 96);
            lift_write_extended(type, passwords[i], LIFT_MD5, 2, BYTES("te_st"), 0, buf, 96);
        }
}

/* The longest challenge and the shortest, with the mark and without, each refusal. */
static void call_read_challenge(void)
{
    lift_read_challenge(BYTES("otp-md5 9999 ABCDEFGHijkl6789 "));
    lift_read_challenge(BYTES("otp-sha1 9999 ABCDEFGHijkl6789 "));
    lift_read_challenge(BYTES("otp-md5 \t0\t t\n"));
    lift_read_challenge(BYTES("otp-sha1 9999 ABCDEFGHijkl6789 \t ext,a,b\n"));
    lift_read_challenge(BYTES("otp-md5 1 t EXT\n"));
    lift_read_challenge(BYTES("OTP-md5 1 t\n"));
    lift_read_challenge(BYTES("otp-md4 1 t\n"));
    lift_read_challenge(BYTES("otp-md5 01 t\n"));
    lift_read_challenge(BYTES("otp-md5 1 ABCDEFGHijkl67890\n"));
    lift_read_challenge(BYTES("otp-md5 1 te_st\n"));
    lift_read_challenge(BYTES("otp-md5 1 test"));
    lift_read_challenge(bytes, ROOM);
    lift_read_challenge(bytes, 0);
}

static void call_write_challenge_by(uint32_t algorithm)
{
    lift_write_challenge(algorithm, BYTES("ABCDEFGHijkl6789"), 9999, buf, 31);
    lift_write_challenge(algorithm, BYTES("ABCDEFGHijkl6789"), 9999, buf, 29);
    lift_write_challenge(algorithm, BYTES("t"), 0, buf, ROOM);
    lift_write_challenge(algorithm, BYTES(""), 0, buf, ROOM);
    lift_write_challenge(algorithm, BYTES("te_st"), 0, buf, ROOM);
    lift_write_challenge(algorithm, BYTES("test"), 10000, buf, ROOM);
}

static void call_write_challenge(void)
{
    for (size_t i = 0; i < LENGTH_OF(algorithms); i++)
        call_write_challenge_by(algorithms[i]);
}

/* One line, and the most; a refusal of each kind of input. */
static void call_write_card(void)
{
    lift_write_card(bytes, 10, BYTES("otp-md5 1 t\n"), 1, buf, ROOM);
    lift_write_card(bytes, 63, BYTES("otp-md5 9999 ABCDEFGHijkl6789 "), 99, card, sizeof card);
    lift_write_card(bytes, 63, BYTES("otp-sha1 9999 ABCDEFGHijkl6789 "), 99, card, sizeof card);
    lift_write_card(bytes, 63, BYTES("otp-md5 9999 ABCDEFGHijkl6789 "), 99, card, 99);
    lift_write_card(bytes, 9, BYTES("otp-md5 1 t\n"), 1, buf, ROOM);
    lift_write_card(bytes, 10, BYTES("otp-md4 1 t\n"), 1, buf, ROOM);
    lift_write_card(bytes, 10, BYTES("otp-md5 1 t\n"), 2, buf, ROOM);
}

static void call_password_of(void)
{
    lift_password_of(bytes);
}

static void call_bytes_of(void)
{
    lift_bytes_of(passwords[2], buf);
}

static void (*call)(void);

/* What comes before and after it on the painted stack stays in the top half
 * KiB, above this frame's end; so the call is what goes deepest. */
static void call_below(void)
{
    volatile uint8_t top[512] = {0};
    call();
    (void)top[0]; /* kept until the call is over */
}

/* Bytes of the stack, from its top, down to the deepest whose paint is gone. */
static size_t depth(int paint)
{
    ucontext_t here, there;
    size_t unused = 0;
    memset(stack, paint, STACK);
    getcontext(&there);
    there.uc_stack.ss_sp = stack;
    there.uc_stack.ss_size = STACK;
    there.uc_link = &here;
    makecontext(&there, call_below, 0);
    swapcontext(&here, &there);
    while (unused < STACK && stack[unused] == paint)
        unused++;
    return STACK - unused;
}

/* A byte may happen to be written with the paint's value, but not with both. */
static void measure(const char *name, void (*calls)(void))
{
    call = calls;
    size_t once = depth(0xa5), again = depth(0x5a);
    printf("%s %zu\n", name, once > again ? once : again);
}

int main(void)
{
    memset(bytes, 'a', sizeof bytes);
    measure("lift_md5", call_md5);
    measure("lift_sha1", call_sha1);
    measure("lift_password", call_password);
    measure("lift_read_plain", call_read_plain);
    measure("lift_read_reply", call_read_reply);
    measure("lift_write_hex", call_write_hex);
    measure("lift_write_words", call_write_words);
    measure("lift_write_extended", call_write_extended);
    measure("lift_read_challenge", call_read_challenge);
    measure("lift_write_challenge", call_write_challenge);
    measure("lift_write_card", call_write_card);
    measure("lift_password_of", call_password_of);
    measure("lift_bytes_of", call_bytes_of);
    measure("painted_offer", call_offer);
    measure("painted_offer_renewal", call_offer_renewal);
    printf("wrong %zu\n", wrong_answers());
    return 0;
}
