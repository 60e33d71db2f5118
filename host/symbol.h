/* A function of a library that is found when the program starts, so that the
 * program builds and runs where the library isn't installed. */
#ifndef SYMBOL_H
#define SYMBOL_H

#include <dlfcn.h>
#include <string.h>

/* Puts the function of that name where `function` points; 0 if there is none.
 * ISO C has no cast from data to function: the pointer's bytes are copied. */
static inline int find(void *library, const char *name, void *function)
{
    void *symbol = dlsym(library, name);
    memcpy(function, &symbol, sizeof symbol);
    return symbol != NULL;
}

#endif
