/* A call of each function of lift.h, as a panel would make it: a challenge is
 * read, the password for it made and written, also as a handheld sends it, and
 * what was typed or sent is read back. */
#include <stdio.h>
#include <string.h>

#include "lift.h"

#define BYTES(string) (const uint8_t *)(string), strlen(string)

static const char phrase[] = "A_Valid_Pass_Phrase", challenge[] = "otp-md5 99 AValidSeed ext\n";
static const char renewal[] = "init-hex:85c43ee03857765b:sha1 500 lift3:e997c756ad2ffaad";
static const char misread[] = "FOWL KIO MASH DEAD DUAL OAP"; /* KID and OAF, off a smudged card */

static void print_text(const char *what, const uint8_t *text, lift_written result)
{
    if (result.refusal != 0)
        printf("%s refused %u\n", what, (unsigned)result.refusal);
    else
        printf("%s %.*s\n", what, (int)result.written, (const char *)text);
}

/* What may stand between words. */
static int is_blank(char c)
{
    return c == ' ' || c == '\t' || c == '\r' || c == '\n';
}

/* A typed line, and below it a caret under each letter of a word that is marked. */
static void print_marked(const char *typed, uint32_t marks)
{
    int word = 0;
    puts(typed);
    for (size_t i = 0; typed[i] != '\0'; i++) {
        if (!is_blank(typed[i]) && (i == 0 || is_blank(typed[i - 1])))
            word++;
        putchar(!is_blank(typed[i]) && marks & LIFT_MARK(word) ? '^' : ' ');
    }
    putchar('\n');
}

int main(void)
{
    uint8_t buf[99 * 52], digest[20], key[8];

    lift_challenge asked = lift_read_challenge(BYTES(challenge));
    const uint8_t *seed = (const uint8_t *)challenge + asked.seed_at;
    lift_reading made = lift_password(asked.algorithm, BYTES(phrase), seed, asked.seed_len, asked.count);
    lift_reading next = lift_password(LIFT_SHA1, BYTES(phrase), BYTES("lift3"), 500);
    printf("takes extended replies %u\n", (unsigned)asked.ext);
    print_text("words", buf, lift_write_words(made.password, buf, sizeof buf));
    print_text("hex", buf, lift_write_hex(made.password, buf, sizeof buf));
    print_text("short", buf, lift_write_hex(made.password, buf, 15));
    print_text("login", buf, lift_write_extended(LIFT_WORD, made.password, 0, 0, NULL, 0, 0, buf, sizeof buf));
    print_text("renewal", buf, lift_write_extended(LIFT_INIT_HEX, made.password, LIFT_SHA1, 500, BYTES("lift3"),
                                                   next.password, buf, sizeof buf));

    lift_reading typed = lift_read_plain(BYTES("fowl kid mash dead dual oaf"));
    printf("typed the same %d\n", typed.refusal == 0 && typed.password == made.password);
    typed = lift_read_plain(BYTES("FOWL KID MASH DEAD DUAL OAK"));
    printf("mistyped refused %u\n", (unsigned)typed.refusal);
    typed = lift_read_plain(BYTES(misread));
    printf("misread refused %u\n", (unsigned)typed.refusal);
    if (typed.refusal == LIFT_WORD_UNKNOWN)
        print_marked(misread, typed.marks);

    lift_reply sent = lift_read_reply(BYTES(renewal));
    if (sent.refusal != 0)
        printf("sent refused %u\n", (unsigned)sent.refusal);
    else if (sent.init)
        printf("renews to algorithm %u, count %u, seed %.*s\n", (unsigned)sent.algorithm, (unsigned)sent.count,
               (int)sent.seed_len, renewal + sent.seed_at);
    printf("both passwords %d\n", sent.password == made.password && sent.new_password == next.password);

    lift_bytes_of(made.password, key);
    printf("the eight bytes and back %d\n", lift_password_of(key) == made.password);
    lift_md5(key, sizeof key, digest, sizeof digest);
    printf("md5 %02x%02x..\n", digest[0], digest[1]);
    lift_sha1(key, sizeof key, digest, sizeof digest);
    printf("sha1 %02x%02x..\n", digest[0], digest[1]);
    print_text("challenge", buf, lift_write_challenge(asked.algorithm, seed, asked.seed_len, 98, buf, sizeof buf));
    print_text("card", buf, lift_write_card(BYTES(phrase), BYTES(challenge), 2, buf, sizeof buf));
    return 0;
}
