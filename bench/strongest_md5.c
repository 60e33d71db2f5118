/* plain_md5.c once more, in the strongest C that we know. A step waits for the
 * one before it, so what counts is how little comes after that: F has two
 * operations there and not three; G's halves share no bit, so they are summed,
 * and one of them before the other is known, as far as the compiler keeps to that order; and the compression stands in the
 * loops that call it: in the chain, 14 of a block's 16 words are constants. */
#define STRONGEST
#ifdef BY_CLANG
#define plain_md5 clang_md5
#define plain_md5_password clang_md5_password
#else
#define plain_md5 gcc_md5
#define plain_md5_password gcc_md5_password
#endif
#include "plain_md5.c"
