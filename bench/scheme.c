// Signing and verification under the Keccak suite in plain C, for the largest set. What the rounds drew is kept in memory, and
// F and G are those of map.c.
#include "baseline.h"

#include <string.h>

enum { N = 64, M = 64, ROUNDS = 269, PACKED = 40, COEFFICIENTS = 137216, POOL = 2 * N + M };

// Where the parts of a signature begin.
enum { ANSWERS = 64, RESPONSES = ANSWERS + ROUNDS * 2 * PACKED, OTHERS = RESPONSES + ROUNDS * PACKED };

// What a round drew begins with r0, and t0 and e0 follow. Drawing writes past them.
enum { T0 = N, E0 = 2 * N, DRAWN = POOL + POOL / 8 + 64 };

// (a·x - y) modulo 31
static void scaled_less(uint8_t a, const uint8_t x[64], const uint8_t y[64], uint8_t out[64]) {
    for (size_t i = 0; i < 64; i++) out[i] = (uint8_t)((a * x[i] + 31 - y[i]) % 31);
}

// The challenges: h1 and α, from D ‖ σ0.
static int first_challenges(const uint8_t *digest, const uint8_t *sigma0, uint8_t h1[32], uint8_t *alpha) {
    NAME(hash)(5, digest, 32, sigma0, 32, h1);
    return NAME(draw)(11, h1, alpha, ROUNDS);
}

// The bits, from D ‖ σ0 ‖ h1 ‖ σ1.
static void second_challenges(const uint8_t *digest, const uint8_t *sigma0, const uint8_t *h1, const uint8_t *sigma1, uint8_t *bits) {
    uint8_t head[96], asked[33];
    memcpy(head, digest, 32);
    memcpy(head + 32, sigma0, 32);
    memcpy(head + 64, h1, 32);
    asked[0] = 12;
    NAME(hash)(6, head, 96, sigma1, ROUNDS * 2 * PACKED, asked + 1);
    NAME(shake128)(asked, 33, bits, ROUNDS);
    for (size_t i = 0; i < ROUNDS; i++) bits[i] &= 1;
}

// Draws a round, and writes c0 ‖ c1.
static int commit(const uint8_t *map, const uint8_t *s, const uint8_t head[64], size_t i, uint8_t pool[DRAWN], uint8_t *list) {
    uint8_t number[2] = {(uint8_t)i, (uint8_t)(i >> 8)}, seed[32], r1[N], g[M], opening[3 * PACKED];
    NAME(hash)(7, head, 64, number, 2, seed);
    if (NAME(draw)(10, seed, pool, POOL)) return 1;
    NAME(pack)(pool, opening);
    NAME(pack)(pool + T0, opening + PACKED);
    NAME(pack)(pool + E0, opening + 2 * PACKED);
    NAME(hash)(0, opening, 3 * PACKED, NULL, 0, list);
    scaled_less(1, s, pool, r1);
    NAME(polar)(map, pool + T0, r1, N, M, g);
    for (size_t k = 0; k < M; k++) g[k] = (uint8_t)((g[k] + pool[E0 + k]) % 31);
    NAME(pack)(r1, opening);
    NAME(pack)(g, opening + PACKED);
    NAME(hash)(1, opening, 2 * PACKED, NULL, 0, list + 32);
    return 0;
}

// Writes t1 and e1 of a round.
static void answer_first(const uint8_t *map, const uint8_t pool[DRAWN], uint8_t alpha, uint8_t *out) {
    uint8_t v[M], w[M];
    scaled_less(alpha, pool, pool + T0, v);
    NAME(pack)(v, out);
    NAME(map)(map, pool, N, M, v);
    scaled_less(alpha, v, pool + E0, w);
    NAME(pack)(w, out + PACKED);
}

int NAME(sign)(const uint8_t *message, size_t len, uint8_t *map, const uint8_t key[64], uint8_t *sig) {
    static uint8_t pools[ROUNDS][DRAWN], list[64 * ROUNDS];
    uint8_t s[N + N / 8 + 64], head[64], h1[32], alpha[ROUNDS + ROUNDS / 8 + 64], bits[ROUNDS], r1[N];
    if (NAME(draw)(9, key, s, N) || NAME(draw)(8, key + 32, map, COEFFICIENTS)) return 1;
    NAME(hash)(3, key, 32, message, len, sig);
    memcpy(head, key, 32);
    NAME(hash)(4, sig, 32, message, len, head + 32);
    for (size_t i = 0; i < ROUNDS; i++) {
        if (commit(map, s, head, i, pools[i], list + 64 * i)) return 1;
    }
    NAME(hash)(2, list, sizeof list, NULL, 0, sig + 32);
    if (first_challenges(head + 32, sig + 32, h1, alpha)) return 1;
    for (size_t i = 0; i < ROUNDS; i++) answer_first(map, pools[i], alpha[i], sig + ANSWERS + 2 * PACKED * i);
    second_challenges(head + 32, sig + 32, h1, sig + ANSWERS, bits);
    for (size_t i = 0; i < ROUNDS; i++) {
        scaled_less(1, s, pools[i], r1);
        NAME(pack)(bits[i] ? r1 : pools[i], sig + RESPONSES + PACKED * i);
        memcpy(sig + OTHERS + 32 * i, list + 64 * i + (bits[i] ? 0 : 32), 32);
    }
    memset(pools, 0, sizeof pools);
    memset(s, 0, sizeof s);
    return 0;
}

// Works out the commitment that a response opens.
static void reopen(const uint8_t *map, const uint8_t *v, uint8_t alpha, uint8_t bit, const uint8_t t[N], const uint8_t e[M],
                   const uint8_t r[N], uint8_t out[32]) {
    uint8_t opening[3 * PACKED], f[M], g[M], w[M];
    NAME(pack)(r, opening);
    NAME(map)(map, r, N, M, f);
    if (bit == 0) {
        scaled_less(alpha, r, t, w);
        NAME(pack)(w, opening + PACKED);
        scaled_less(alpha, f, e, w);
        NAME(pack)(w, opening + 2 * PACKED);
        NAME(hash)(0, opening, 3 * PACKED, NULL, 0, out);
    } else {
        NAME(polar)(map, t, r, N, M, g);
        for (size_t k = 0; k < M; k++) w[k] = (uint8_t)((alpha * (v[k] + 31 - f[k]) + 62 - g[k] - e[k]) % 31);
        NAME(pack)(w, opening + PACKED);
        NAME(hash)(1, opening, 2 * PACKED, NULL, 0, out);
    }
}

// 0 where the signature is accepted, 1 where a byte is unlawful or too little can be drawn, 2 where the list has another digest.
int NAME(verify)(const uint8_t *message, size_t len, uint8_t *map, const uint8_t key[72], const uint8_t *sig) {
    static uint8_t ts[ROUNDS][N], es[ROUNDS][M], rs[ROUNDS][N], list[64 * ROUNDS];
    uint8_t v[M], digest[32], h1[32], alpha[ROUNDS + ROUNDS / 8 + 64], bits[ROUNDS], sigma0[32];
    int faulty = NAME(unpack)(key + 32, v);
    for (size_t i = 0; i < ROUNDS; i++) {
        faulty |= NAME(unpack)(sig + ANSWERS + 2 * PACKED * i, ts[i]);
        faulty |= NAME(unpack)(sig + ANSWERS + 2 * PACKED * i + PACKED, es[i]);
        faulty |= NAME(unpack)(sig + RESPONSES + PACKED * i, rs[i]);
    }
    if (faulty || NAME(draw)(8, key, map, COEFFICIENTS)) return 1;
    NAME(hash)(4, sig, 32, message, len, digest);
    if (first_challenges(digest, sig + 32, h1, alpha)) return 1;
    second_challenges(digest, sig + 32, h1, sig + ANSWERS, bits);
    for (size_t i = 0; i < ROUNDS; i++) {
        size_t recomputed = bits[i] ? 32 : 0;
        reopen(map, v, alpha[i], bits[i], ts[i], es[i], rs[i], list + 64 * i + recomputed);
        memcpy(list + 64 * i + (32 - recomputed), sig + OTHERS + 32 * i, 32);
    }
    NAME(hash)(2, list, sizeof list, NULL, 0, sigma0);
    return memcmp(sigma0, sig + 32, 32) == 0 ? 0 : 2;
}
