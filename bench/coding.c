// Drawing, packing and digests under the Keccak suite in plain C, for the field of 31. Buffers are long enough; nothing is checked.
#include "baseline.h"

#include <string.h>

// The first `count` bytes of the stream whose low five bits are below 31; 1 where there are too few.
int NAME(draw)(uint8_t label, const uint8_t seed[32], uint8_t *buffer, size_t count) {
    uint8_t asked[33];
    size_t len = count + count / 8 + 64, found = 0;
    asked[0] = label;
    memcpy(asked + 1, seed, 32);
    NAME(shake128)(asked, 33, buffer, len);
    for (size_t k = 0; k < len; k++) {
        uint8_t element = buffer[k] & 31;
        buffer[found] = element;
        found += element < 31;
    }
    return found < count;
}

// Eight elements fill five bytes.
void NAME(pack)(const uint8_t v[64], uint8_t out[40]) {
    for (size_t k = 0; k < 8; k++) {
        uint64_t bits = 0;
        for (size_t i = 0; i < 8; i++) bits |= (uint64_t)v[8 * k + i] << 5 * i;
        for (size_t j = 0; j < 5; j++) out[5 * k + j] = (uint8_t)(bits >> 8 * j);
    }
}

// 1 where an element is 31.
int NAME(unpack)(const uint8_t bytes[40], uint8_t v[64]) {
    int faulty = 0;
    for (size_t k = 0; k < 8; k++) {
        uint64_t bits = 0;
        for (size_t j = 0; j < 5; j++) bits |= (uint64_t)bytes[5 * k + j] << 8 * j;
        for (size_t i = 0; i < 8; i++) {
            v[8 * k + i] = bits >> 5 * i & 31;
            faulty |= v[8 * k + i] == 31;
        }
    }
    return faulty;
}

// d(label, head ‖ tail), of at most 65,568 bytes.
void NAME(hash)(uint8_t label, const uint8_t *head, size_t head_len, const uint8_t *tail, size_t tail_len, uint8_t out[32]) {
    uint8_t asked[65569];
    asked[0] = label;
    memcpy(asked + 1, head, head_len);
    if (tail_len != 0) memcpy(asked + 1 + head_len, tail, tail_len);
    NAME(sha3_256)(asked, 1 + head_len + tail_len, out);
}
