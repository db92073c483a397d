// F and G over the field of 31 by hand, in AVX2: monomials reduced to a byte each, 32 products at a time.
#include "baseline.h"

#include <immintrin.h>
#include <string.h>

enum { MONOMIALS = 2144 };

// Products of two bytes below 31 add up in pairs within 16 bits, and in fours within 32.
static uint32_t dot(const uint8_t *cs, const uint8_t *terms, size_t len) {
    const __m256i ones = _mm256_set1_epi16(1);
    __m256i sums = _mm256_setzero_si256();
    size_t k = 0;
    for (; k + 32 <= len; k += 32) {
        __m256i c = _mm256_loadu_si256((const __m256i *)(cs + k));
        __m256i t = _mm256_load_si256((const __m256i *)(terms + k));
        sums = _mm256_add_epi32(sums, _mm256_madd_epi16(_mm256_maddubs_epi16(c, t), ones));
    }
    uint32_t lanes[8], sum = 0;
    _mm256_storeu_si256((__m256i *)lanes, sums);
    for (int i = 0; i < 8; i++) sum += lanes[i];
    for (; k < len; k++) sum += (uint32_t)cs[k] * terms[k];
    return sum;
}

void avx2_map(const uint8_t *cs, const uint8_t *x, size_t n, size_t m, uint8_t *out) {
    uint8_t terms[MONOMIALS] __attribute__((aligned(32)));
    size_t size = 0;
    for (size_t i = 0; i < n; i++) {
        for (size_t j = i; j < n; j++) terms[size + j - i] = (uint8_t)((uint16_t)(x[i] * x[j]) % 31);
        size += n - i;
    }
    memcpy(terms + size, x, n);
    size += n;
    for (size_t e = 0; e < m; e++) out[e] = (uint8_t)(dot(cs + e * size, terms, size) % 31);
}

void avx2_polar(const uint8_t *cs, const uint8_t *x, const uint8_t *y, size_t n, size_t m, uint8_t *out) {
    uint8_t terms[MONOMIALS] __attribute__((aligned(32)));
    size_t size = 0;
    for (size_t i = 0; i < n; i++) {
        for (size_t j = i; j < n; j++) terms[size + j - i] = (uint8_t)((uint16_t)(x[i] * y[j] + y[i] * x[j]) % 31);
        size += n - i;
    }
    for (size_t e = 0; e < m; e++) out[e] = (uint8_t)(dot(cs + e * (size + n), terms, size) % 31);
}
