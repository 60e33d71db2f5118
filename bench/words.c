/* Passwords as six words and as hex, read and written, against Heimdal's libotp.
 * Thousands of random passwords take turns: a processor that sees a few again
 * and again learns where their searches branch. */
#include <string.h>

#include "bench.h"
#include "heimdal.h"
#include "lift.h"

/* room for the longest text, 29 bytes, with a type of five before it, and for
 * the NUL that Heimdal wants */
enum { PASSWORDS = 4096, ROOM = 40 };

typedef struct {
    char bytes[ROOM];
    size_t len;
} written_text;

static uint64_t passwords[PASSWORDS];
static unsigned char keys[PASSWORDS][8];
static written_text words[PASSWORDS], misread[PASSWORDS], extended[PASSWORDS], hex[PASSWORDS];

typedef uint64_t reader(const written_text *text);
typedef size_t writer(size_t which, char buf[ROOM]);

static uint64_t plain_reader(const written_text *text)
{
    return lift_read_plain((const uint8_t *)text->bytes, text->len).password;
}

/* Plain or extended: what comes before an offer. */
static uint64_t reply_reader(const written_text *text)
{
    return lift_read_reply((const uint8_t *)text->bytes, text->len).password;
}

static uint32_t marks_of(const written_text *text)
{
    return lift_read_plain((const uint8_t *)text->bytes, text->len).marks;
}

static uint64_t heimdal_words_reader(const written_text *text)
{
    unsigned char key[8] = {0};
    heimdal->parse_stddict(key, text->bytes);
    return password_of_key(key);
}

static uint64_t heimdal_hex_reader(const written_text *text)
{
    unsigned char key[8] = {0};
    heimdal->parse_hex(key, text->bytes);
    return password_of_key(key);
}

static size_t proved_words_writer(size_t which, char buf[ROOM])
{
    return lift_write_words(passwords[which], (uint8_t *)buf, ROOM).written;
}

static size_t proved_hex_writer(size_t which, char buf[ROOM])
{
    return lift_write_hex(passwords[which], (uint8_t *)buf, ROOM).written;
}

static size_t heimdal_words_writer(size_t which, char buf[ROOM])
{
    heimdal->print_stddict(keys[which], buf, ROOM);
    return 1; /* it doesn't say how much it wrote */
}

static size_t heimdal_hex_writer(size_t which, char buf[ROOM])
{
    heimdal->print_hex(keys[which], buf, ROOM);
    return 1;
}

/* The next of a fixed row of random numbers (splitmix64). */
static uint64_t next_password(uint64_t *state)
{
    uint64_t z = *state += 0x9e3779b97f4a7c15;
    z = (z ^ z >> 30) * 0xbf58476d1ce4e5b9;
    z = (z ^ z >> 27) * 0x94d049bb133111eb;
    return z ^ z >> 31;
}

/* A line whose first word isn't in the dictionary: Q for each of its letters. */
static written_text first_misread(written_text text)
{
    memset(text.bytes, 'Q', strcspn(text.bytes, " "));
    return text;
}

static written_text of_type_word(written_text text)
{
    written_text typed = {"word:", text.len + 5};
    memcpy(typed.bytes + 5, text.bytes, text.len);
    return typed;
}

static void make_passwords(void)
{
    uint64_t state = 2289;
    for (size_t i = 0; i < PASSWORDS; i++) {
        passwords[i] = next_password(&state);
        lift_bytes_of(passwords[i], keys[i]);
        words[i].len = proved_words_writer(i, words[i].bytes);
        misread[i] = first_misread(words[i]);
        extended[i] = of_type_word(words[i]);
        hex[i].len = proved_hex_writer(i, hex[i].bytes);
    }
}

static void check_heimdal(size_t i)
{
    char its_words[ROOM], its_hex[ROOM];
    heimdal_words_writer(i, its_words);
    heimdal_hex_writer(i, its_hex);
    same(strcmp(words[i].bytes, its_words) == 0, "words written, Heimdal");
    same(strcmp(hex[i].bytes, its_hex) == 0, "hex written, Heimdal");
    same(heimdal_words_reader(&words[i]) == passwords[i], "words read, Heimdal");
    same(heimdal_hex_reader(&hex[i]) == passwords[i], "hex read, Heimdal");
}

void check_words(void)
{
    make_passwords();
    for (size_t i = 0; i < PASSWORDS; i++) {
        same(plain_reader(&words[i]) == passwords[i], "words read, the password written");
        same(reply_reader(&words[i]) == passwords[i], "words read as a reply, the password written");
        same(reply_reader(&extended[i]) == passwords[i], "words of an extended reply read, the password written");
        same(marks_of(&misread[i]) == LIFT_MARK(1), "words misread, the first marked");
        same(plain_reader(&hex[i]) == passwords[i], "hex read, the password written");
        if (heimdal != NULL)
            check_heimdal(i);
    }
}

typedef struct {
    const char *whose;
    reader *read_words, *read_hex;
    writer *write_words, *write_hex;
} subject;

/* Heimdal is the last, since it may not be there. */
static const subject subjects[] = {
    {"proved", plain_reader, plain_reader, proved_words_writer, proved_hex_writer},
    {"heimdal", heimdal_words_reader, heimdal_hex_reader, heimdal_words_writer, heimdal_hex_writer},
};

static void time_reader(const char *what, const char *whose, reader *read,
                        const written_text texts[PASSWORDS])
{
    uint64_t sum = 0;
    double start = now();
    for (size_t i = 0; i < PASSWORDS; i++)
        sum += read(&texts[i]);
    timed(what, whose, now() - start, PASSWORDS);
    sink = sum;
}

static void time_writer(const char *what, const char *whose, writer *write)
{
    char buf[ROOM];
    uint64_t sum = 0;
    double start = now();
    for (size_t i = 0; i < PASSWORDS; i++)
        sum += write(i, buf) + (uint8_t)buf[0];
    timed(what, whose, now() - start, PASSWORDS);
    sink = sum;
}

static void time_subject(const subject *one)
{
    time_reader("words-read", one->whose, one->read_words, words);
    time_writer("words-written", one->whose, one->write_words);
    time_reader("hex-read", one->whose, one->read_hex, hex);
    time_writer("hex-written", one->whose, one->write_hex);
}

typedef struct {
    const char *what, *whose;
    reader *read;
    const written_text *texts;
} reading;

/* What it costs that a misread line is looked up to its end: beside lines
 * of known words, and beside Heimdal, which stops at the first unknown word. And
 * what it costs that a reply may be extended: beside the reader of plain
 * texts. Heimdal's are the last, since it may not be there. */
enum { HEIMDALS = 2 };
static const reading readings[] = {
    {"words-misread", "proved", plain_reader, misread},
    {"words-misread", "known", plain_reader, words},
    {"reply-read", "proved", reply_reader, words},
    {"reply-read", "plainly", plain_reader, words},
    {"extended-read", "proved", reply_reader, extended},
    {"extended-read", "plainly", plain_reader, words},
    {"words-misread", "heimdal", heimdal_words_reader, misread},
    {"reply-read", "heimdal", heimdal_words_reader, words},
};

static void time_readings(size_t round)
{
    size_t there = LENGTH_OF(readings) - (heimdal == NULL ? HEIMDALS : 0);
    for (size_t k = 0; k < there; k++) {
        const reading *one = &readings[rotated(round, k, there)];
        time_reader(one->what, one->whose, one->read, one->texts);
    }
}

void time_words(size_t round)
{
    time_readings(round);
    size_t there = heimdal == NULL ? 1 : LENGTH_OF(subjects);
    for (size_t k = 0; k < there; k++)
        time_subject(&subjects[rotated(round, k, there)]);
}
