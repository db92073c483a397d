// What key making and signing leave on the stack. Under the bench suite a K and an S of zeros draw the secret vector (9, 9, ..), and in
// every round r0, t0 and e0 are 24 at most places, so that r1 is 16: rows of these numbers are looked for.
#include "beltscarp.h"

#include <stdio.h>
#include <string.h>

enum { MAP = 154432, LIST = 17216, SECRET = 1024, PUBLIC = 72, SIGNATURE = 40952, KEY = 64, DEPTH = 65536, RUN = 16 };

static uint8_t map[MAP], list[LIST], secret[SECRET], public_key[PUBLIC], signature[SIGNATURE], key[KEY];
static int passed, failed;

// A row of one number, as it would stand in memory.
static uint8_t row[2 * RUN];
static size_t row_len;

static void as_bytes(uint8_t value) {
    row_len = RUN;
    memset(row, value, RUN);
}

static void as_terms(uint16_t value) {
    row_len = 2 * RUN;
    for (int k = 0; k < RUN; k++) memcpy(row + 2 * k, &value, 2);
}

// 24 elements, packed.
static void as_packed(uint8_t value) {
    row_len = 15;
    memset(row, 0, row_len);
    for (unsigned bit = 0; bit < 8 * row_len; bit++) row[bit / 8] |= (uint8_t)((value >> bit % 5 & 1) << bit % 8);
}

// Writes over the part of the stack that the call will use.
__attribute__((noinline)) static void paint(uint8_t fill) {
    volatile uint8_t part[DEPTH];
    for (size_t i = 0; i < DEPTH; i++) part[i] = fill;
    (void)part;
}

// How often the row stands on that part of the stack.
__attribute__((noinline)) static int found(void) {
    uint8_t part[DEPTH];
    int times = 0;
    __asm__ volatile("" : : "r"(part) : "memory");
    for (size_t i = 0; i + row_len <= DEPTH; i++) times += memcmp(part + i, row, row_len) == 0;
    return times;
}

// What a call that forgets its terms would leave.
__attribute__((noinline)) static void forget(uint16_t value) {
    volatile uint16_t terms[2144];
    for (size_t i = 0; i < 2144; i++) terms[i] = value;
    (void)terms;
}

static void check(const char *what, int holds) {
    passed += holds;
    failed += !holds;
    if (!holds) printf("FAILED %s\n", what);
}

static void make(void) {
    uint64_t told[3];
    paint(0xEE);
    check("a key is made", beltscarp_make_key(0, 64, 64, 269, map, MAP, secret, SECRET, key, KEY, public_key, PUBLIC, told, 3) == 0);
}

static void sign(void) {
    uint64_t told[3];
    paint(0xEE);
    uint32_t status =
        beltscarp_sign(0, 64, 64, 269, key, 0, map, MAP, list, LIST, secret, SECRET, key, KEY, signature, SIGNATURE, told, 3);
    check("signed", status == 0);
}

// Whether a vector of one number is left as bytes or packed. A response is public, so of r0 and r1 one may be found, but not both:
// together they give the secret vector.
static int left(uint8_t value) {
    as_bytes(value);
    sign();
    int times = found();
    as_packed(value);
    sign();
    return times + found() != 0;
}

int main(void) {
    static const uint16_t TERMS[] = {9, 16, 24, 24 * 24, 2 * 24 * 16};
    paint(0xEE);
    forget(9);
    as_terms(9);
    check("a row that is left is found", found() != 0);
    make();
    check("the terms of the secret vector are gone after key making", found() == 0);
    as_bytes(9);
    make();
    check("the secret vector is gone after key making", found() == 0);
    for (size_t k = 0; k < sizeof TERMS / sizeof TERMS[0]; k++) {
        as_terms(TERMS[k]);
        sign();
        check("the terms of a round are gone after signing", found() == 0);
    }
    check("the secret vector is gone after signing", !left(9));
    check("r0 and r1 are not both left after signing", !(left(24) && left(16)));
    printf("%d passed, %d failed\n", passed, failed);
    return failed != 0;
}
