/* Heimdal's libotp, an answer for each line of standard input. An algorithm and
 * a password as sixteen hex digits: what otp_parse, the reader of its servers,
 * makes of those digits, and whether otp_verify_user_1 lets them in at an
 * account that waits for that very password. An algorithm, a pass-phrase as hex
 * digits, a seed and a count: the password. Ends with status 3 where the
 * library isn't installed. */
#include <stdint.h>
#include <stdio.h>
#include <string.h>
#include <time.h>

#include "../symbol.h"

enum { KEY = 8, MOST_PHRASE = 63, MOST_LINE = 200, ABSENT = 3 };

/* Heimdal's otp.h, as far as it is used here. */
typedef struct {
    int id;
    char *name;
    int hashsize;
    int (*hash)(const char *text, size_t len, unsigned char *digest);
    int (*init)(unsigned char *key, const char *phrase, const char *seed);
    int (*next)(unsigned char *key);
} algorithm;

typedef struct {
    char *user;
    algorithm *alg;
    unsigned n;
    char seed[17];
    unsigned char key[KEY];
    int challengep;
    time_t lock_time;
    char *err;
} account;

static algorithm *(*find_alg)(char *name);
static int (*parse)(unsigned char *key, const char *text, algorithm *alg);
static int (*verify)(account *waiting, const char *text);

static int find_library(void)
{
    void *library = dlopen("libotp.so.0", RTLD_NOW);
    return library != NULL && find(library, "otp_find_alg", &find_alg) &&
           find(library, "otp_parse", &parse) && find(library, "otp_verify_user_1", &verify);
}

/* As many bytes as there are pairs of digits; whether all are digits. */
static int bytes_of(const char *digits, unsigned char *bytes)
{
    for (size_t i = 0; i < strlen(digits) / 2; i++)
        if (sscanf(digits + 2 * i, "%2hhx", &bytes[i]) != 1)
            return 0;
    return 1;
}

static void print_key(const unsigned char *key)
{
    for (int i = 0; i < KEY; i++)
        printf("%02x", key[i]);
}

static void print_read(const char *digits, algorithm *alg)
{
    unsigned char key[KEY];
    if (parse(key, digits, alg) != 0) {
        printf("no");
        return;
    }
    printf("ok ");
    print_key(key);
}

/* The account's stored key is the password hashed once. */
static void print_login(const char *digits, const unsigned char *password, algorithm *alg)
{
    account waiting = {.alg = alg, .n = 100};
    memcpy(waiting.key, password, KEY);
    alg->next(waiting.key);
    puts(verify(&waiting, digits) == 0 ? " in" : " out");
}

static int print_reply(const char *digits, algorithm *alg)
{
    unsigned char password[KEY];
    if (strlen(digits) != 2 * KEY || !bytes_of(digits, password))
        return 0;
    print_read(digits, alg);
    print_login(digits, password, alg);
    return 1;
}

/* The library takes the pass-phrase as a text that ends in NUL. */
static int print_password(const char *digits, const char *seed, unsigned count, algorithm *alg)
{
    unsigned char phrase[MOST_PHRASE + 1] = {0}, key[KEY];
    if (!bytes_of(digits, phrase) || alg->init(key, (const char *)phrase, seed) != 0)
        return 0;
    for (unsigned n = 0; n < count; n++)
        alg->next(key);
    print_key(key);
    puts("");
    return 1;
}

int main(void)
{
    char line[MOST_LINE], name[8], digits[2 * MOST_PHRASE + 1], seed[17];
    unsigned count;
    if (!find_library())
        return ABSENT;
    while (fgets(line, sizeof line, stdin) != NULL) {
        int words = sscanf(line, "%7s %126s %16s %u", name, digits, seed, &count);
        algorithm *alg = words == 2 || words == 4 ? find_alg(name) : NULL;
        if (alg == NULL || !(words == 2 ? print_reply(digits, alg) : print_password(digits, seed, count, alg)))
            return 1;
    }
    return 0;
}
