// SHA3-256 and SHAKE128 in plain C, eight bytes at a time, over the written-out permutation.
#include "baseline.h"

#include <string.h>

static void add_block(uint64_t s[25], const uint8_t *block, size_t rate) {
    for (size_t k = 0; k < rate / 8; k++) {
        uint64_t lane;
        memcpy(&lane, block + 8 * k, 8);
        s[k] ^= lane;
    }
}

static void sponge(size_t rate, uint8_t suffix, const uint8_t *message, size_t len, uint8_t *out, size_t out_len) {
    uint64_t s[25] = {0};
    uint8_t last[200] = {0};
    for (; len >= rate; len -= rate, message += rate) {
        add_block(s, message, rate);
        NAME(keccak_f)(s);
    }
    if (len != 0) memcpy(last, message, len);
    last[len] = suffix;
    last[rate - 1] |= 0x80;
    add_block(s, last, rate);
    NAME(keccak_f)(s);
    for (; out_len > rate; out_len -= rate, out += rate) {
        memcpy(out, s, rate);
        NAME(keccak_f)(s);
    }
    memcpy(out, s, out_len);
}

void NAME(sha3_256)(const uint8_t *message, size_t len, uint8_t out[32]) {
    sponge(136, 0x06, message, len, out, 32);
}

void NAME(shake128)(const uint8_t *message, size_t len, uint8_t *out, size_t out_len) {
    sponge(168, 0x1f, message, len, out, out_len);
}
