// The plain C functions that the kit is measured against. Each compiler's copy has its own prefix, by NAME.
#ifndef BASELINE_H
#define BASELINE_H

#include <stddef.h>
#include <stdint.h>

#define BASELINE(prefix)                                                                                              \
    void prefix##_keccak_f(uint64_t s[25]);                                                                           \
    void prefix##_keccak_f_short(uint64_t s[25]);                                                                     \
    void prefix##_sha3_256(const uint8_t *message, size_t len, uint8_t out[32]);                                      \
    void prefix##_shake128(const uint8_t *message, size_t len, uint8_t *out, size_t out_len);                         \
    void prefix##_map(const uint8_t *cs, const uint8_t *x, size_t n, size_t m, uint8_t *out);                         \
    void prefix##_map_32(const uint8_t *cs, const uint8_t *x, size_t n, size_t m, uint8_t *out);                      \
    void prefix##_polar(const uint8_t *cs, const uint8_t *x, const uint8_t *y, size_t n, size_t m, uint8_t *out);     \
    int prefix##_draw(uint8_t label, const uint8_t seed[32], uint8_t *buffer, size_t count);                           \
    void prefix##_pack(const uint8_t v[64], uint8_t out[40]);                                                         \
    int prefix##_unpack(const uint8_t bytes[40], uint8_t v[64]);                                                      \
    void prefix##_hash(uint8_t label, const uint8_t *head, size_t head_len, const uint8_t *tail, size_t tail_len,     \
                       uint8_t out[32]);                                                                              \
    int prefix##_make_key(uint8_t *map, uint8_t *secret, const uint8_t key[64], uint8_t answer[72]);                  \
    int prefix##_sign(const uint8_t *message, size_t len, uint8_t *map, const uint8_t key[64], uint8_t *sig);         \
    int prefix##_verify(const uint8_t *message, size_t len, uint8_t *map, const uint8_t key[72], const uint8_t *sig);

BASELINE(gcc)
BASELINE(clang)

void avx2_map(const uint8_t *cs, const uint8_t *x, size_t n, size_t m, uint8_t *out);
void avx2_polar(const uint8_t *cs, const uint8_t *x, const uint8_t *y, size_t n, size_t m, uint8_t *out);

#define JOINED(prefix, name) prefix##_##name
#define PREFIXED(prefix, name) JOINED(prefix, name)
#define NAME(name) PREFIXED(PREFIX, name)

#endif
