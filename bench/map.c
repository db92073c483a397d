// F and G over the field of 31 in plain C, in the kit's shape: all monomials once as 16 bits, one dot product and one remainder
// for each equation. Nothing is checked, and the monomials are not wiped.
#include "baseline.h"

enum { MONOMIALS = 2144 };

// A product has 16 bits, and is widened as it is added: the kit's form, which compilers turn into wide products.
static uint32_t dot(const uint8_t *cs, const uint16_t *terms, size_t len) {
    uint32_t sum = 0;
    for (size_t k = 0; k < len; k++) sum += (uint16_t)(cs[k] * terms[k]);
    return sum;
}

// The same with products of 32 bits, as it is written first.
static uint32_t dot_32(const uint8_t *cs, const uint16_t *terms, size_t len) {
    uint32_t sum = 0;
    for (size_t k = 0; k < len; k++) sum += (uint32_t)cs[k] * terms[k];
    return sum;
}

// Writes x(i)·x(j), i from 0 and j from i upward, and then x(i), and says how many there are.
static size_t fill(const uint8_t *x, size_t n, uint16_t *terms) {
    size_t size = 0;
    for (size_t i = 0; i < n; i++) {
        for (size_t j = i; j < n; j++) terms[size++] = (uint16_t)(x[i] * x[j]);
    }
    for (size_t i = 0; i < n; i++) terms[size++] = x[i];
    return size;
}

void NAME(map)(const uint8_t *cs, const uint8_t *x, size_t n, size_t m, uint8_t *out) {
    uint16_t terms[MONOMIALS];
    size_t size = fill(x, n, terms);
    for (size_t e = 0; e < m; e++) out[e] = (uint8_t)(dot(cs + e * size, terms, size) % 31);
}

void NAME(map_32)(const uint8_t *cs, const uint8_t *x, size_t n, size_t m, uint8_t *out) {
    uint16_t terms[MONOMIALS];
    size_t size = fill(x, n, terms);
    for (size_t e = 0; e < m; e++) out[e] = (uint8_t)(dot_32(cs + e * size, terms, size) % 31);
}

void NAME(polar)(const uint8_t *cs, const uint8_t *x, const uint8_t *y, size_t n, size_t m, uint8_t *out) {
    uint16_t terms[MONOMIALS];
    size_t size = 0;
    for (size_t i = 0; i < n; i++) {
        for (size_t j = i; j < n; j++) terms[size++] = (uint16_t)(x[i] * y[j] + y[i] * x[j]);
    }
    for (size_t e = 0; e < m; e++) out[e] = (uint8_t)(dot(cs + e * (size + n), terms, size) % 31);
}
