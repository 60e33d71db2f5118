/* lift.h: the one-time-password functions that the panel firmware calls.
 *
 * The functions are proved in the crates of this repository; link
 * target/staticlib/libpanel.a, which `make panel` writes. Nothing is
 * allocated and nothing is kept between calls: a call may be made from any
 * task, and two tasks may call at once with buffers of their own.
 *
 * What every call gives
 *   - `refusal` is 0, or one of the numbers of `enum lift_refusal`. After a
 *     refusal every other field is 0, except `marks` beside 31.
 *   - Checks run in the order in which a function's comment lists its
 *     refusals; the first that fails is the answer.
 *   - A writer touches only the first `written` bytes of the buffer lent to
 *     it: none at all after a refusal. What is lent to be read is only read.
 *   - A text is bytes with a length. No call looks for a NUL or writes one.
 *
 * What the host owes (C can't check it, and the proofs rest on it)
 *   - A pointer and its length name memory that is there for that whole
 *     length; a pointer may be null only where its length is 0.
 *   - Two buffers lent to one call don't overlap.
 *   - Nobody else writes to a lent buffer while the call runs.
 *
 * What is not promised
 *   - Constant time. How long a call takes depends on what it is given: a
 *     higher count takes longer, and so may one text than another.
 *   - That nothing stays behind. A call leaves what it used of the stack as it
 *     is, and that may hold the pass-phrase and passwords. A host that minds
 *     clears it afterwards; docs/GUIDE.md has how much it was on the inputs
 *     that were tried, which is no bound.
 *   - Another processor than x86-64: it is all that the Rattle kit compiles
 *     for today, so the functions can't be linked into firmware for Arm yet.
 */
#ifndef LIFT_H
#define LIFT_H

#include <stddef.h>
#include <stdint.h>

#ifdef __cplusplus
extern "C" {
#endif

/* Which state of this header it is: 0 for the base, n after change request
 * R-n. What R-7 asks of a caller: lift_read_reply reads plain and extended
 * replies now, and answers a lift_reply. Who read plain texts with it up to
 * LIFT_VERSION 6 calls lift_read_plain, which is that function under another
 * name. All that includes this header is compiled again: an object of an
 * earlier version would link, and take the larger answer for its own. */
#define LIFT_VERSION 7

/* The algorithms by number. Any other number is refused as unknown (21); it is
 * compared whole, so 257 isn't 1. In a text an algorithm is its name, `md5` or
 * `sha1`, in lower case. */
enum lift_algorithm {
    LIFT_MD5 = 1,
    LIFT_SHA1 = 2
};

/* The types of an extended reply (RFC 2243) by number; in a text a type is its
 * name, in lower case. Any other number is refused as unknown (34). The `init`
 * types are renewals. */
enum lift_type {
    LIFT_HEX = 1,      /* hex */
    LIFT_WORD = 2,     /* word */
    LIFT_INIT_HEX = 3, /* init-hex */
    LIFT_INIT_WORD = 4 /* init-word */
};

/* The refusals, by the numbers of document 01, the rules of the build;
 * docs/GUIDE.md has for each what is wrong and what to do. The functions below
 * give 10 to 40, 51 and 70. The others of 50 to 63 are the login table's own,
 * for a panel that shows what a controller answered. */
enum lift_refusal {
    LIFT_PHRASE_SHORT = 10,
    LIFT_PHRASE_LONG = 11,
    LIFT_INPUT_LONG = 12,
    LIFT_COUNT_HIGH = 13,
    LIFT_OPENING_WRONG = 20,
    LIFT_ALGORITHM_UNKNOWN = 21,
    LIFT_COUNT_UNREAD = 22,
    LIFT_SEED_LENGTH = 23,
    LIFT_SEED_CHARACTER = 24,
    LIFT_SEED_UNENDED = 25,
    LIFT_REPLY_LONG = 30,
    LIFT_WORD_UNKNOWN = 31,
    LIFT_PAIR_SUM_WRONG = 32,
    LIFT_REPLY_UNREAD = 33,
    LIFT_TYPE_UNKNOWN = 34,
    LIFT_PARTS_WRONG = 35,
    LIFT_BUFFER_SHORT = 40,
    LIFT_ID_ZERO = 50,
    LIFT_COUNT_OUTSIDE = 51,
    LIFT_ID_TAKEN = 52,
    LIFT_TABLE_FULL = 53,
    LIFT_ACCOUNT_MISSING = 54,
    LIFT_PORT_UNKNOWN = 55,
    LIFT_PORT_IN_LINE = 56,
    LIFT_PORT_SHUT = 57,
    LIFT_ACCOUNT_USED_UP = 58,
    LIFT_PORT_NOT_IN_LINE = 59,
    LIFT_PORT_NOT_IN_FRONT = 60,
    LIFT_REPLY_WRONG = 61,
    LIFT_REPLY_WRONG_THIRD = 62,
    LIFT_SEED_SAME = 63,
    LIFT_LINES_OUTSIDE = 70
};

/* A password, as the 64-bit number whose first byte is the most significant,
 * or a refusal. `marks` is 1 to 63 with refusal 31, otherwise 0: LIFT_MARK(k)
 * is set in it exactly where word k, 1 to 6, is not in the dictionary. */
typedef struct {
    uint64_t password;
    uint32_t refusal;
    uint32_t marks;
} lift_reading;

/* The mark of word 1 to 6. */
#define LIFT_MARK(word) ((uint32_t)1 << ((word) - 1))

/* What the text of a reply is read to, or a refusal. `init` is 0 for a
 * login: `password` is all that it has, and every other field is 0. `init` is 1
 * for a renewal, a text of an `init` type: `password` is the present one, and
 * beside it are the new password and the new values as the text has them, which
 * are not checked here. `algorithm` is 0 where the name is neither `md5` nor
 * `sha1`. `count` is 0 where what stands there is no one to four digits without
 * a leading zero; any other count is the number it is, 0 and 1 too. The seed is
 * the seed_len bytes at text + seed_at, in the caller's own text and as they
 * stand there: all that follows the count, up to the last byte that isn't white
 * space, of any length, any bytes but a colon. Where there is none, seed_at and
 * seed_len are 0. The controller that it is offered to refuses values that it
 * doesn't take, by 51, 21, 23, 24 and 63 in that order.
 * `marks` is 1 to 63 with refusal 31, as in lift_reading, otherwise 0. */
typedef struct {
    uint64_t password, new_password;
    size_t seed_at, seed_len;
    uint32_t init, algorithm, count, refusal, marks;
} lift_reply;

/* How many bytes a writer put at the front of the buffer, or a refusal. */
typedef struct {
    size_t written;
    uint32_t refusal;
} lift_written;

/* What a challenge says: the algorithm by its number, the count, the seed as
 * the seed_len bytes at text + seed_at, and how many bytes were used, the one
 * after the seed included; or a refusal. `ext` is 1 with the mark, which says
 * that the server takes extended replies: `used` then goes up to the byte after
 * the mark, that one included. `ext` is 0 without the mark. */
typedef struct {
    size_t seed_at, seed_len, used;
    uint32_t count, algorithm, ext, refusal;
} lift_challenge;

/* MD5 (RFC 1321) of text[0 .. text_len], 0 to 4,096 bytes: the 16 bytes of
 * the digest are written to digest[0 .. 16].
 *   12  text_len is over 4,096
 *   40  digest_len is under 16 */
lift_written lift_md5(const uint8_t *text, size_t text_len,
                      uint8_t *digest, size_t digest_len);

/* SHA-1 (FIPS 180) of text[0 .. text_len], 0 to 4,096 bytes: the 20 bytes of
 * the digest are written to digest[0 .. 20].
 *   12  text_len is over 4,096
 *   40  digest_len is under 20 */
lift_written lift_sha1(const uint8_t *text, size_t text_len,
                       uint8_t *digest, size_t digest_len);

/* The password for a pass-phrase, a seed and a count (RFC 2289), under an
 * algorithm: that of the challenge, as lift_read_challenge gives it.
 * The pass-phrase is bytes of any value; the seed is taken in either case.
 * The time grows with the count: a count of 9,999 hashes 10,000 times.
 *   21  algorithm is neither LIFT_MD5 nor LIFT_SHA1
 *   10  phrase_len is under 10
 *   11  phrase_len is over 63
 *   23  seed_len is not 1 to 16
 *   24  a byte of the seed is no ASCII letter or digit
 *   13  count is over 9,999 */
lift_reading lift_password(uint32_t algorithm,
                           const uint8_t *phrase, size_t phrase_len,
                           const uint8_t *seed, size_t seed_len,
                           uint32_t count);

/* Reads a plain reply: six words or sixteen hex digits, in either case, between
 * spaces, tabs, carriage returns and newlines. Six tokens of one to four
 * letters are words, even where they could be hex. An extended reply is none:
 * here a colon is 33. Up to R-6 this was lift_read_reply.
 *   30  text_len is over 128
 *   31  a word is not in the dictionary; `marks` has a mark for each such
 *   32  the words are known, but their check sum is wrong
 *   33  neither six words nor sixteen digits */
lift_reading lift_read_plain(const uint8_t *text, size_t text_len);

/* Reads a reply, plain or extended, and looks at no table: what it gives
 * is for a controller to take or refuse. A text with a colon is extended (RFC
 * 2243): a type's name in lower case, a colon and a password; for the two
 * `init` types then a colon, algorithm, count and seed between white space, a
 * colon and the new password. The type says how its passwords are spelt, in
 * digits or in words, in either case and with white space as in a plain reply;
 * no other spelling is tried. Every other text is plain, and read as by
 * lift_read_plain.
 *   30  text_len is over 256, or over 128 and there is no colon
 *   34  what stands before the first colon is none of the four types
 *   35  not one colon for `hex` and `word`, three for the `init` types
 * then for the new password, where there is one, and after it for the other
 *   31  a word is not in the dictionary; `marks` has a mark for each such, and
 *       doesn't say of which of the two passwords it speaks
 *   32  the words are known, but their check sum is wrong
 *   33  neither six words nor sixteen digits; in an extended reply, not that
 *       of the two which its type says
 * The seed is a part of the caller's text, so text[0 .. text_len] has to stay
 * as it is for as long as the host uses seed_at and seed_len. */
lift_reply lift_read_reply(const uint8_t *text, size_t text_len);

/* Writes a password as 16 lower-case hex digits to buf[0 .. 16].
 *   40  buf_len is under 16 */
lift_written lift_write_hex(uint64_t password, uint8_t *buf, size_t buf_len);

/* Writes a password as six upper-case words with a space between, 11 to 29
 * bytes, to the front of buf.
 *   40  buf_len is under the length of this very text */
lift_written lift_write_words(uint64_t password, uint8_t *buf, size_t buf_len);

/* Writes an extended reply (RFC 2243) to the front of buf, with nothing after
 * it: the type's name, a colon and the password, as lift_write_hex or
 * lift_write_words writes it. For the two `init` types, then a colon, algorithm,
 * space, count, space, the seed as it is given, a colon and the new password.
 * At most 20, 34, 69 and 96 bytes for the types 1 to 4.
 * With LIFT_HEX and LIFT_WORD nothing of a renewal is looked at: algorithm,
 * count and new_password may be any number, and the seed's bytes anything. Its
 * pointer and length are owed as ever; null with length 0 will do.
 *   34  type is none of enum lift_type
 * for the `init` types then
 *   51  count is not 2 to 9,999
 *   21  algorithm is neither LIFT_MD5 nor LIFT_SHA1
 *   23  seed_len is not 1 to 16
 *   24  a byte of the seed is no ASCII letter or digit
 * and last
 *   40  buf_len is under the length of this very text */
lift_written lift_write_extended(uint32_t type, uint64_t password,
                                 uint32_t algorithm, uint32_t count,
                                 const uint8_t *seed, size_t seed_len,
                                 uint64_t new_password,
                                 uint8_t *buf, size_t buf_len);

/* Reads a challenge from left to right, as `otp-sha1 487 dog2` and a newline,
 * or with the mark ` ext` before the newline. The text may be of any length;
 * what stands after the byte that ends the seed is looked at for the mark
 * alone. A token ends before a space, tab, newline or the end. The mark is the
 * next token on the seed's line, `ext` in lower case, alone or with a comma and
 * whatever is behind that, nothing too, and has a space or newline straight
 * after it. Whatever else stands there is no mark, and no refusal.
 *   20  it does not start with `otp-`
 *   21  the rest of that token is neither `md5` nor `sha1`
 *   22  no count of one to four digits without a leading zero
 *   23  the seed is not 1 to 16 bytes long
 *   24  a byte of the seed is no ASCII letter or digit
 *   25  no space or newline straight after the seed */
lift_challenge lift_read_challenge(const uint8_t *text, size_t text_len);

/* Writes a challenge, the seed in lower case, a newline at its end, to the
 * front of buf: 12 to 31 bytes. It writes no mark.
 *   21  algorithm is neither LIFT_MD5 nor LIFT_SHA1
 *   23  seed_len is not 1 to 16
 *   24  a byte of the seed is no ASCII letter or digit
 *   13  count is over 9,999
 *   40  buf_len is under the length of this very text */
lift_written lift_write_challenge(uint32_t algorithm,
                                  const uint8_t *seed, size_t seed_len,
                                  uint32_t count, uint8_t *buf, size_t buf_len);

/* Writes a card to the front of buf: a line for each count from the
 * challenge's down, each with count, hex, six words and a newline; at most
 * 52 bytes a line. The passwords are by the challenge's algorithm.
 *   10, 11    the pass-phrase, as for lift_password
 *   20 to 25  the challenge, as for lift_read_challenge
 *   70  lines is not 1 to 99, or is over the challenge's count
 *   40  buf_len is under the length of the whole card */
lift_written lift_write_card(const uint8_t *phrase, size_t phrase_len,
                             const uint8_t *challenge, size_t challenge_len,
                             uint32_t lines, uint8_t *buf, size_t buf_len);

/* Eight bytes as a password, the first most significant, and back. Neither
 * refuses; bytes[0 .. 8] has to be there. */
uint64_t lift_password_of(const uint8_t bytes[8]);
void lift_bytes_of(uint64_t password, uint8_t bytes[8]);

#ifdef __cplusplus
}
#endif

#endif
