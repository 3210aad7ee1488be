/* Tip5's permutation and its inverse, from the library that `tools/build tip5_c` proves and builds:
 * target/staticlib/libtip5_c.a, for x86-64.
 *
 * `state` is sixteen raw words of eight bytes, each lowest byte first: 128 bytes. An element of value
 * v has the raw word v * 2^64 mod p, with p = 18446744069414584321. `length` is the number of bytes at
 * `state`.
 *
 * The answer is 0, and the bytes are changed in place; or it is a refusal, and every byte is as it
 * was:
 *
 *   TIP5_WRONG_LENGTH   the length is not 128
 *   TIP5_BAD_WORD       the length is 128, and a word is p or more
 *
 * Nothing besides those bytes is read or written, and nothing is kept between two calls.
 */
#ifndef TIP5_H
#define TIP5_H

#include <stddef.h>
#include <stdint.h>

#ifdef __cplusplus
extern "C" {
#endif

enum { TIP5_BAD_WORD = 1, TIP5_WRONG_LENGTH = 2 };

uint32_t tip5_permutation(uint8_t *state, size_t length);
uint32_t tip5_inverse_permutation(uint8_t *state, size_t length);

#ifdef __cplusplus
}
#endif

#endif
