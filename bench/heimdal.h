/* Heimdal's otp.h, as far as it is used here; a key is eight bytes. */
#ifndef HEIMDAL_H
#define HEIMDAL_H

#include <stddef.h>
#include <stdint.h>

typedef struct {
    int id;
    char *name;
    int hashsize;
    int (*hash)(const char *s, size_t len, unsigned char *res);
    int (*init)(char *key, const char *pwd, const char *seed);
    int (*next)(char *key);
} heimdal_algorithm;

typedef struct {
    heimdal_algorithm *(*find_alg)(const char *name);
    int (*parse_stddict)(unsigned char *key, const char *s);
    int (*parse_hex)(unsigned char *key, const char *s);
    void (*print_stddict)(unsigned char *key, char *str, size_t sz);
    void (*print_hex)(unsigned char *key, char *str, size_t sz);
    heimdal_algorithm *md5, *sha1;
} heimdal_library;

/* Null where the library isn't installed. */
extern const heimdal_library *heimdal;

void find_heimdal(void);

/* A key as a password: its first byte is the most significant. */
uint64_t password_of_key(const unsigned char key[8]);

#endif
