// Keccak-f[1600] in plain C, twice: with its steps written out on 25 locals, and in short loops over tables.
#include "baseline.h"

static const uint64_t CONSTANTS[24] = {
    0x0000000000000001, 0x0000000000008082, 0x800000000000808a, 0x8000000080008000, 0x000000000000808b, 0x0000000080000001,
    0x8000000080008081, 0x8000000000008009, 0x000000000000008a, 0x0000000000000088, 0x0000000080008009, 0x000000008000000a,
    0x000000008000808b, 0x800000000000008b, 0x8000000000008089, 0x8000000000008003, 0x8000000000008002, 0x8000000000000080,
    0x000000000000800a, 0x800000008000000a, 0x8000000080008081, 0x8000000000008080, 0x0000000080000001, 0x8000000080008008,
};

static inline uint64_t turned(uint64_t lane, int by) {
    return by == 0 ? lane : lane << by | lane >> (64 - by);
}

// The offsets of ρ, row by row.
static const int OFFSETS[25] = {0, 1, 62, 28, 27, 36, 44, 6, 55, 20, 3, 10, 43, 25, 39, 41, 45, 15, 21, 8, 18, 2, 61, 56, 14};

void NAME(keccak_f)(uint64_t s[25]) {
    uint64_t a[25];
    for (int k = 0; k < 25; k++) a[k] = s[k];
    for (int round = 0; round < 24; round++) {
        uint64_t c[5], b[25];
#pragma GCC unroll 5
        for (int x = 0; x < 5; x++) c[x] = a[x] ^ a[x + 5] ^ a[x + 10] ^ a[x + 15] ^ a[x + 20];
#pragma GCC unroll 5
        for (int x = 0; x < 5; x++) {
            uint64_t d = c[(x + 4) % 5] ^ turned(c[(x + 1) % 5], 1);
#pragma GCC unroll 5
            for (int y = 0; y < 5; y++) b[5 * ((2 * x + 3 * y) % 5) + y] = turned(a[5 * y + x] ^ d, OFFSETS[5 * y + x]);
        }
#pragma GCC unroll 5
        for (int y = 0; y < 5; y++) {
#pragma GCC unroll 5
            for (int x = 0; x < 5; x++) a[5 * y + x] = b[5 * y + x] ^ (~b[5 * y + (x + 1) % 5] & b[5 * y + (x + 2) % 5]);
        }
        a[0] ^= CONSTANTS[round];
    }
    for (int k = 0; k < 25; k++) s[k] = a[k];
}

// The walk of ρ and π through the lanes from lane 1 on.
static const int WALK[24] = {10, 7, 11, 17, 18, 3, 5, 16, 8, 21, 24, 4, 15, 23, 19, 13, 12, 2, 20, 14, 22, 9, 6, 1};
static const int TURNS[24] = {1, 3, 6, 10, 15, 21, 28, 36, 45, 55, 2, 14, 27, 41, 56, 8, 25, 43, 62, 18, 39, 61, 20, 44};

void NAME(keccak_f_short)(uint64_t s[25]) {
    for (int round = 0; round < 24; round++) {
        uint64_t c[5];
        for (int x = 0; x < 5; x++) c[x] = s[x] ^ s[x + 5] ^ s[x + 10] ^ s[x + 15] ^ s[x + 20];
        for (int x = 0; x < 5; x++) {
            uint64_t d = c[(x + 4) % 5] ^ turned(c[(x + 1) % 5], 1);
            for (int y = 0; y < 25; y += 5) s[y + x] ^= d;
        }
        uint64_t moved = s[1];
        for (int k = 0; k < 24; k++) {
            uint64_t next = s[WALK[k]];
            s[WALK[k]] = turned(moved, TURNS[k]);
            moved = next;
        }
        for (int y = 0; y < 25; y += 5) {
            for (int x = 0; x < 5; x++) c[x] = s[y + x];
            for (int x = 0; x < 5; x++) s[y + x] ^= ~c[(x + 1) % 5] & c[(x + 2) % 5];
        }
        s[0] ^= CONSTANTS[round];
    }
}
