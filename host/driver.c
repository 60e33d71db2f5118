/* Answers replay lines through lift.h: a call a line on standard input, an
 * answer a line on standard output. The texts that it lends end at a page
 * that can't be read, so a read past one's end stops the program. */
#define _DEFAULT_SOURCE
#include <inttypes.h>
#include <stdio.h>
#include <stdlib.h>
#include <string.h>

#include "lend.h"
#include "lift.h"

enum { MOST_WORDS = FIELDS, MOST_ALGORITHM = 255, MOST_NUMBER = 65535 };

/* One word of a call: a number (of which a password is one), or bytes. */
typedef struct {
    uint64_t number;
    const uint8_t *bytes;
    size_t len;
} word;

/* Kinds of words: t text, p password, a algorithm, n number, r room, l type of
 * a login, i type of a renewal. A name may be that of two calls, of which the
 * words say which it is. */
typedef struct {
    const char *name;
    const char *kinds;
    void (*answer)(const word *given);
} call;

static void print_hex(const uint8_t *bytes, size_t len)
{
    if (len == 0)
        putchar('-');
    for (size_t i = 0; i < len; i++)
        printf("%02x", bytes[i]);
}

/* 31's marks as six of `0` and `1`, in the words' order. */
static void print_marks(uint32_t marks)
{
    for (int k = 1; k <= 6; k++)
        putchar(marks & LIFT_MARK(k) ? '1' : '0');
}

/* A refusal, with 31's marks. */
static void print_refusal(uint32_t refusal, uint32_t marks)
{
    printf("no %" PRIu32, refusal);
    if (refusal == 31) {
        putchar(' ');
        print_marks(marks);
    }
}

/* 31's marks are 1 to 63; without it there are none. */
static bool marks_clean(uint32_t refusal, uint32_t marks)
{
    return refusal == 31 ? 1 <= marks && marks <= 63 : marks == 0;
}

/* After a refusal every field but 31's marks has to be 0. */
static void print_reading(const char *good, lift_reading r)
{
    bool clean = (r.refusal == 0 || r.password == 0) && marks_clean(r.refusal, r.marks);
    if (r.refusal == 0)
        printf("%s %016" PRIx64, good, r.password);
    else
        print_refusal(r.refusal, r.marks);
    puts(clean ? "" : " dirty");
}

/* Of a login the password is all there is; after a refusal not even that. */
static bool no_renewal(lift_reply r)
{
    return r.init == 0 && r.new_password == 0 && r.algorithm == 0 && r.count == 0 && r.seed_at == 0 && r.seed_len == 0;
}

/* The seed is a part of the text; none is the empty part at its start. */
static bool seed_inside(lift_reply r, size_t len)
{
    return r.seed_len == 0 ? r.seed_at == 0 : r.seed_at < len && r.seed_len <= len - r.seed_at;
}

static void print_renewal(const word *text, lift_reply r)
{
    printf("ok init %" PRIu32 " %" PRIu32 " ", r.algorithm, r.count);
    if (seed_inside(r, text->len))
        print_hex(r.seed_len == 0 ? NULL : text->bytes + r.seed_at, r.seed_len);
    printf(" %016" PRIx64 " %016" PRIx64, r.new_password, r.password);
}

static void print_reply(const word *text, lift_reply r)
{
    bool clean = marks_clean(r.refusal, r.marks) && (r.refusal == 0 || r.password == 0) &&
                 ((r.refusal == 0 && r.init == 1) ? seed_inside(r, text->len) : no_renewal(r));
    if (r.refusal != 0)
        print_refusal(r.refusal, r.marks);
    else if (r.init == 1)
        print_renewal(text, r);
    else
        printf("ok pw %016" PRIx64, r.password);
    puts(clean ? "" : " dirty");
}

/* What a writer says it wrote; none of it where that can't be. */
static void print_lent(const uint8_t *buf, size_t written)
{
    print_hex(buf, written <= MOST_ROOM ? written : 0);
}

static void print_written(const uint8_t *buf, lift_written w)
{
    bool clean = touched_only(w.written) && (w.refusal == 0 || w.written == 0);
    if (w.refusal == 0) {
        printf("ok %zu ", w.written);
        print_lent(buf, w.written);
    } else {
        printf("no %" PRIu32, w.refusal);
    }
    puts(clean ? " clean" : " dirty");
}

static void print_digest(lift_written (*digest_of)(const uint8_t *, size_t, uint8_t *, size_t),
                         size_t digest_len, const word *text)
{
    uint8_t *digest = lent();
    lift_written w = digest_of(text->bytes, text->len, digest, digest_len);
    bool clean = touched_only(w.written) && (w.refusal == 0 || w.written == 0);
    if (w.refusal == 0) {
        printf("ok ");
        print_lent(digest, w.written);
    } else {
        printf("no %" PRIu32, w.refusal);
    }
    puts(clean ? "" : " dirty");
}

static void answer_md5(const word *given)
{
    print_digest(lift_md5, 16, &given[0]);
}

static void answer_sha1(const word *given)
{
    print_digest(lift_sha1, 20, &given[0]);
}

static void answer_gen(const word *given)
{
    print_reading("ok", lift_password((uint32_t)given[0].number, given[1].bytes, given[1].len,
                                      given[2].bytes, given[2].len, (uint32_t)given[3].number));
}

static void answer_read(const word *given)
{
    print_reply(&given[0], lift_read_reply(given[0].bytes, given[0].len));
}

static void answer_readplain(const word *given)
{
    print_reading("ok pw", lift_read_plain(given[0].bytes, given[0].len));
}

static void answer_hex(const word *given)
{
    uint8_t *buf = lent();
    print_written(buf, lift_write_hex(given[0].number, buf, given[1].number));
}

static void answer_words(const word *given)
{
    uint8_t *buf = lent();
    print_written(buf, lift_write_words(given[0].number, buf, given[1].number));
}

static void answer_chal(const word *given)
{
    lift_challenge c = lift_read_challenge(given[0].bytes, given[0].len);
    bool clean = c.refusal == 0 || (c.algorithm == 0 && c.count == 0 && c.seed_at == 0 &&
                                    c.seed_len == 0 && c.used == 0 && c.ext == 0);
    if (c.refusal == 0)
        printf("ok %" PRIu32 " %" PRIu32 " %zu %zu %zu %" PRIu32, c.algorithm, c.count, c.seed_at,
               c.seed_len, c.used, c.ext);
    else
        printf("no %" PRIu32, c.refusal);
    puts(clean ? "" : " dirty");
}

static void answer_wchal(const word *given)
{
    uint8_t *buf = lent();
    print_written(buf, lift_write_challenge((uint32_t)given[0].number, given[1].bytes, given[1].len,
                                            (uint32_t)given[2].number, buf, given[3].number));
}

static void answer_login(const word *given)
{
    uint8_t *buf = lent();
    print_written(buf, lift_write_extended((uint32_t)given[0].number, given[1].number, 0, 0, NULL, 0,
                                           0, buf, given[2].number));
}

static void answer_renewal(const word *given)
{
    uint8_t *buf = lent();
    print_written(buf, lift_write_extended((uint32_t)given[0].number, given[1].number,
                                           (uint32_t)given[2].number, (uint32_t)given[3].number,
                                           given[4].bytes, given[4].len, given[5].number,
                                           buf, given[6].number));
}

static void answer_card(const word *given)
{
    uint8_t *buf = lent();
    print_written(buf, lift_write_card(given[0].bytes, given[0].len, given[1].bytes, given[1].len,
                                       (uint32_t)given[2].number, buf, given[3].number));
}

static const call calls[] = {
    {"md5", "t", answer_md5},
    {"sha1", "t", answer_sha1},
    {"gen", "attn", answer_gen},
    {"read", "t", answer_read},
    {"readplain", "t", answer_readplain},
    {"hex", "pr", answer_hex},
    {"words", "pr", answer_words},
    {"chal", "t", answer_chal},
    {"wchal", "atnr", answer_wchal},
    {"wext", "lpr", answer_login},
    {"wext", "ipantpr", answer_renewal},
    {"card", "ttnr", answer_card},
};

static int digit(char c)
{
    if (c >= '0' && c <= '9')
        return c - '0';
    return c >= 'a' && c <= 'f' ? c - 'a' + 10 : -1;
}

/* A decimal number up to `most`. */
static bool take_number(const char *text, uint64_t most, word *out)
{
    out->number = 0;
    for (const char *c = text; *c != '\0'; c++) {
        if (*c < '0' || *c > '9')
            return false;
        out->number = out->number * 10 + (uint64_t)(*c - '0');
        if (out->number > most)
            return false;
    }
    return *text != '\0';
}

/* Sixteen hex digits. */
static bool take_password(const char *text, word *out)
{
    out->number = 0;
    for (const char *c = text; *c != '\0'; c++) {
        if (digit(*c) < 0)
            return false;
        out->number = out->number << 4 | (uint64_t)digit(*c);
    }
    return strlen(text) == 16;
}

/* Pairs of hex digits, turned to the last bytes of field `at`. */
static bool take_text(const char *text, int at, word *out)
{
    out->len = strcmp(text, "-") == 0 ? 0 : strlen(text) / 2;
    if (out->len > FIELD || (out->len == 0 && strcmp(text, "-") != 0) ||
        (out->len > 0 && strlen(text) % 2 != 0))
        return false;
    uint8_t *bytes = last_of(at, out->len);
    for (size_t i = 0; i < out->len; i++) {
        int high = digit(text[2 * i]), low = digit(text[2 * i + 1]);
        if (high < 0 || low < 0)
            return false;
        bytes[i] = (uint8_t)(high << 4 | low);
    }
    out->bytes = bytes;
    return true;
}

/* The name of one of two types. */
static bool take_type(const char *text, uint32_t type, const char *name, uint32_t other,
                      const char *other_name, word *out)
{
    bool first = strcmp(text, name) == 0;
    out->number = first ? type : other;
    return first || strcmp(text, other_name) == 0;
}

static bool take_word(char kind, const char *text, int at, word *out)
{
    switch (kind) {
    case 'l': return take_type(text, LIFT_HEX, "hex", LIFT_WORD, "word", out);
    case 'i': return take_type(text, LIFT_INIT_HEX, "init-hex", LIFT_INIT_WORD, "init-word", out);
    case 'a': return take_number(text, MOST_ALGORITHM, out);
    case 'n': return take_number(text, MOST_NUMBER, out);
    case 'r': return take_number(text, MOST_ROOM, out);
    case 'p': return take_password(text, out);
    default: return take_text(text, at, out);
    }
}

/* Whether a call takes those words. */
static bool takes(const call *c, char *const *words, size_t count, word *given)
{
    if (strlen(c->kinds) != count)
        return false;
    for (size_t at = 0; at < count; at++)
        if (!take_word(c->kinds[at], words[at], (int)at, &given[at]))
            return false;
    return true;
}

/* Answers a line that is a call, and says whether it was one. */
static bool answer_call(char *line)
{
    word given[MOST_WORDS];
    char *words[MOST_WORDS], *rest = line;
    const char *name = strsep(&rest, " ");
    size_t count = 0;
    for (; rest != NULL; count++) {
        if (count == MOST_WORDS)
            return false;
        words[count] = strsep(&rest, " ");
    }
    for (size_t i = 0; i < sizeof calls / sizeof *calls; i++)
        if (strcmp(name, calls[i].name) == 0 && takes(&calls[i], words, count, given)) {
            calls[i].answer(given);
            return true;
        }
    return false;
}

int main(void)
{
    char *line = NULL;
    size_t room = 0;
    ssize_t len;
    make_fields();
    while ((len = getline(&line, &room, stdin)) > 0) {
        if (line[len - 1] == '\n')
            line[--len] = '\0';
        if (len == 0 || line[0] == '#')
            continue;
        /* a NUL inside would hide the rest of its line */
        if (strlen(line) != (size_t)len || !answer_call(line))
            puts("bad");
    }
    free(line);
    return ferror(stdin) || fflush(stdout) != 0 ? 1 : 0;
}
