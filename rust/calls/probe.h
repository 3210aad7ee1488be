/* Our calls, as the static library of the crate `probe` exports them for tests and benchmarks.
 *
 * This list is the only one: the build script reads it and writes from it what calls each function
 * from Rust. One declaration to a line. A pointer and the `size_t` after it are a lent slice; an array
 * has as many items as it says. Every call answers its refusal number, 0 for none. Elements are raw
 * words.
 */
#include <stddef.h>
#include <stdint.h>

/* The field. A refused call answers 0 in its place. */
uint32_t probe_new(uint64_t value, uint64_t raw[1]);
uint32_t probe_from_raw_u64(uint64_t word, uint64_t raw[1]);
uint32_t probe_raw_u64(uint64_t raw, uint64_t word[1]);
uint32_t probe_value(uint64_t raw, uint64_t value[1]);
uint32_t probe_add(uint64_t a, uint64_t b, uint64_t raw[1]);
uint32_t probe_sub(uint64_t a, uint64_t b, uint64_t raw[1]);
uint32_t probe_mul(uint64_t a, uint64_t b, uint64_t raw[1]);
uint32_t probe_mod_pow(uint64_t a, uint64_t exponent, uint64_t raw[1]);

/* The permutation. A refused call leaves the state as it was, and zeros for a trace. */
uint32_t probe_permutation(uint64_t *state, size_t n);
uint32_t probe_round(size_t round, uint64_t *state, size_t n);
uint32_t probe_trace(const uint64_t state[16], uint64_t six[96]);
uint32_t probe_generated_function(uint64_t words[16]);

/* The way back. */
uint32_t probe_inv_permutation(uint64_t *state, size_t n);
uint32_t probe_inv_round(size_t round, uint64_t *state, size_t n);

/* A sponge, as its sixteen words, and the digests. A refused call leaves the state as it was, and
 * zeros for a squeezed ten or a digest. */
uint32_t probe_variable_length(uint64_t state[16]);
uint32_t probe_fixed_length(uint64_t state[16]);
uint32_t probe_absorb(uint64_t state[16], const uint64_t *ten, size_t n);
uint32_t probe_squeeze(uint64_t state[16], uint64_t ten[10]);
uint32_t probe_pad_and_absorb_all(uint64_t state[16], const uint64_t *input, size_t n);
uint32_t probe_hash_10(const uint64_t *ten, size_t n, uint64_t digest[5]);
uint32_t probe_hash_pair(const uint64_t *left, size_t n, const uint64_t *right, size_t m, uint64_t digest[5]);
uint32_t probe_hash_varlen(const uint64_t *input, size_t n, uint64_t digest[5]);

/* One step back, over a squeeze or an absorb. */
uint32_t probe_squeeze_back(uint64_t state[16], const uint64_t *places, size_t n);
uint32_t probe_absorb_back(uint64_t state[16], const uint64_t *saved, size_t n);

/* The same on a record that is lent: each wrapper makes one of the sixteen words and puts them back. */
uint32_t probe_absorb_in_place(uint64_t state[16], const uint64_t *ten, size_t n);
uint32_t probe_squeeze_in_place(uint64_t state[16], uint64_t ten[10]);
uint32_t probe_pad_and_absorb_all_in_place(uint64_t state[16], const uint64_t *input, size_t n);
uint32_t probe_squeeze_back_in_place(uint64_t state[16], const uint64_t *places, size_t n);
uint32_t probe_absorb_back_in_place(uint64_t state[16], const uint64_t *saved, size_t n);

/* The digests of a table's rows, five words each, and a column's view: its number of rows, and a
 * row's word. A refused call leaves the digests as they were, and 0 in the place of a number. */
uint32_t probe_hash_rows_of_columns(const uint64_t *words, size_t n, size_t columns, size_t rows, size_t width, uint64_t *digests, size_t m);
uint32_t probe_row_count(const uint64_t *words, size_t n, size_t stride, size_t offset, uint64_t count[1]);
uint32_t probe_column_rows(const uint64_t *words, size_t n, size_t stride, size_t offset, uint64_t count[1]);
uint32_t probe_entry(const uint64_t *words, size_t n, size_t stride, size_t offset, size_t row, uint64_t word[1]);
uint32_t probe_column_entry(const uint64_t *words, size_t n, size_t stride, size_t offset, size_t row, uint64_t word[1]);

/* A draw of as many indices as the slice holds, by value and on a record that is lent. */
uint32_t probe_sample_indices(uint64_t state[16], uint32_t bound, uint32_t *indices, size_t n, uint64_t allowance, uint64_t found[1], uint64_t squeezes[1]);
uint32_t probe_sample_indices_in_place(uint64_t state[16], uint32_t bound, uint32_t *indices, size_t n, uint64_t allowance, uint64_t found[1], uint64_t squeezes[1]);
