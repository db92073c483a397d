// The functions of crate export, as the static library export_c hands them to C. A slice is a pointer and then a length; see src/ for
// what each call promises.
#ifndef BELTSCARP_H
#define BELTSCARP_H

#include <stddef.h>
#include <stdint.h>

// Statuses: 0 done; 1 refused; 2, where numbers of a refusal are told, an unknown suite or no room for three numbers.

enum { BELTSCARP_BENCH = 0, BELTSCARP_KECCAK = 1 };

// Keccak-f[1600] on 25 lanes, so many times.
uint32_t beltscarp_keccak_f(uint64_t *lanes, size_t lanes_len, size_t times);

// out has 32 bytes.
uint32_t beltscarp_sha3_256(const uint8_t *message, size_t message_len, uint8_t *out, size_t out_len);

void beltscarp_shake128(const uint8_t *message, size_t message_len, uint8_t *out, size_t out_len);

// F(x) and G(x, y) over the field of 31; x_len variables and out_len equations, at most 64 of both.
uint32_t beltscarp_map(const uint8_t *coefficients, size_t coefficients_len, const uint8_t *x, size_t x_len, uint8_t *out,
                       size_t out_len);
uint32_t beltscarp_polar(const uint8_t *coefficients, size_t coefficients_len, const uint8_t *x, size_t x_len, const uint8_t *y,
                         size_t y_len, uint8_t *out, size_t out_len);

// The public key of a secret key. secret is zeros afterwards, however the call ends; told has three places: number, layer, place.
uint32_t beltscarp_make_key(uint32_t suite, size_t n, size_t m, size_t r, uint8_t *map, size_t map_len, uint8_t *secret,
                            size_t secret_len, const uint8_t *key, size_t key_len, uint8_t *answer, size_t answer_len,
                            uint64_t *told, size_t told_len);

// The signature of a message under a secret key, 64 + r·(32 + 2P(n) + P(m)) bytes of answer with P(k) = ceil(5k/8). list has at least
// 64r bytes. secret is zeros afterwards, however the call ends.
uint32_t beltscarp_sign(uint32_t suite, size_t n, size_t m, size_t r, const uint8_t *message, size_t message_len, uint8_t *map,
                        size_t map_len, uint8_t *list, size_t list_len, uint8_t *secret, size_t secret_len, const uint8_t *key,
                        size_t key_len, uint8_t *answer, size_t answer_len, uint64_t *told, size_t told_len);

// Whether a signature of a message is accepted under a public key.
uint32_t beltscarp_verify(uint32_t suite, size_t n, size_t m, size_t r, const uint8_t *message, size_t message_len, uint8_t *map,
                          size_t map_len, uint8_t *list, size_t list_len, const uint8_t *key, size_t key_len,
                          const uint8_t *signature, size_t signature_len, uint64_t *told, size_t told_len);

// The check of a signature's set, length and vectors.
uint32_t beltscarp_check_vectors(size_t n, size_t m, size_t r, const uint8_t *signature, size_t signature_len, uint64_t *told,
                                 size_t told_len);

#endif
