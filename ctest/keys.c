// Key making through the C interface: after each way out the secret buffer is zeros, and so is the answer of a refused call.
#include "beltscarp.h"
#include "common.h"

#include <string.h>

enum { MAP = 154432, SECRET = 1024, ANSWER = 72, KEY = 64 };

// One call of key making: what it is given, and what must come of it.
struct call {
    const char *name;
    uint32_t suite;
    size_t n, m, r;
    size_t map_len, secret_len, answer_len, key_len, told_len;
    uint8_t k, s; // the byte that fills the seed K, and S
    uint32_t status;
    uint64_t told[3];
};

static const struct call CALLS[] = {
    {"n of 0", 0, 0, 1, 1, 66, SECRET, 33, KEY, 3, 0, 0, 1, {1, 3, 0}},
    {"n of 65", 0, 65, 1, 1, MAP, SECRET, 33, KEY, 3, 0, 0, 1, {1, 3, 0}},
    {"m of 0", 0, 1, 0, 1, 66, SECRET, 32, KEY, 3, 0, 0, 1, {1, 3, 0}},
    {"m of 65", 1, 1, 65, 1, MAP, SECRET, 73, KEY, 3, 0, 0, 1, {1, 3, 0}},
    {"r of 0", 0, 1, 1, 0, 66, SECRET, 33, KEY, 3, 0, 0, 1, {1, 3, 0}},
    {"r of 270", 1, 64, 64, 270, MAP, SECRET, ANSWER, KEY, 3, 0, 0, 1, {1, 3, 0}},
    {"bad set before wrong lengths", 0, 0, 0, 0, 0, 0, 0, 0, 3, 0, 0, 1, {1, 3, 0}},
    {"map one byte short", 0, 1, 1, 1, 65, SECRET, 33, KEY, 3, 0, 0, 1, {3, 3, 1}},
    {"map one byte short, largest set", 1, 64, 64, 269, MAP - 1, SECRET, ANSWER, KEY, 3, 1, 2, 1, {3, 3, 1}},
    {"no map", 0, 1, 1, 1, 0, SECRET, 33, KEY, 3, 0, 0, 1, {3, 3, 1}},
    {"map before secret", 0, 1, 1, 1, 65, SECRET - 1, 33, KEY, 3, 0, 0, 1, {3, 3, 1}},
    {"secret one byte short", 0, 1, 1, 1, 66, SECRET - 1, 33, KEY, 3, 0, 0, 1, {3, 3, 3}},
    {"secret one byte short, largest set", 1, 64, 64, 269, MAP, SECRET - 1, ANSWER, KEY, 3, 1, 2, 1, {3, 3, 3}},
    {"secret of one byte", 0, 1, 1, 1, 66, 1, 33, KEY, 3, 0, 0, 1, {3, 3, 3}},
    {"no secret", 0, 1, 1, 1, 66, 0, 33, KEY, 3, 0, 0, 1, {3, 3, 3}},
    {"secret before answer", 0, 1, 1, 1, 66, SECRET - 1, 32, KEY, 3, 0, 0, 1, {3, 3, 3}},
    {"answer one byte short", 0, 1, 1, 1, 66, SECRET, 32, KEY, 3, 0, 0, 1, {3, 3, 4}},
    {"answer one byte long", 0, 1, 1, 1, 66, SECRET, 34, KEY, 3, 0, 0, 1, {3, 3, 4}},
    {"answer one byte short, largest set", 1, 64, 64, 269, MAP, SECRET, ANSWER - 1, KEY, 3, 1, 2, 1, {3, 3, 4}},
    {"answer one byte long, largest set", 1, 64, 64, 269, MAP, SECRET, ANSWER + 1, KEY, 3, 1, 2, 1, {3, 3, 4}},
    {"answer before key", 0, 1, 1, 1, 66, SECRET, 32, KEY - 1, 3, 0, 0, 1, {3, 3, 4}},
    {"key one byte short", 0, 1, 1, 1, 66, SECRET, 33, KEY - 1, 3, 0, 0, 1, {7, 3, 0}},
    {"key one byte long", 0, 1, 1, 1, 66, SECRET, 33, KEY + 1, 3, 0, 0, 1, {7, 3, 0}},
    {"key one byte short, largest set", 1, 64, 64, 269, MAP, SECRET, ANSWER, KEY - 1, 3, 1, 2, 1, {7, 3, 0}},
    // With F6 as K the stream of label 9 is FF throughout, and with F7 as S that of label 8: no byte gives an element.
    {"no secret vector", 0, 1, 1, 1, 66, SECRET, 33, KEY, 3, 0xF6, 0, 1, {17, 2, 9}},
    {"no secret vector, largest set", 0, 64, 64, 269, MAP, SECRET, ANSWER, KEY, 3, 0xF6, 0, 1, {17, 2, 9}},
    {"no map drawn", 0, 1, 1, 1, 66, SECRET, 33, KEY, 3, 0, 0xF7, 1, {17, 2, 8}},
    {"no map drawn, largest set", 0, 64, 64, 269, MAP, SECRET, ANSWER, KEY, 3, 0, 0xF7, 1, {17, 2, 8}},
    {"no secret vector before no map", 0, 1, 1, 1, 66, SECRET, 33, KEY, 3, 0xF6, 0xF7, 1, {17, 2, 9}},
    {"unknown suite", 2, 1, 1, 1, 66, SECRET, 33, KEY, 3, 0, 0, 2, {0, 0, 0}},
    {"unknown suite, secret short", 2, 1, 1, 1, 66, SECRET - 1, 33, KEY, 3, 0, 0, 2, {0, 0, 0}},
    {"two places for the numbers", 0, 1, 1, 1, 66, SECRET, 33, KEY, 2, 0, 0, 2, {0, 0, 0}},
    {"bench", 0, 1, 1, 1, 66, SECRET, 33, KEY, 3, 0, 0, 0, {0, 0, 0}},
    {"bench, longer map and secret", 0, 1, 1, 1, 67, SECRET + 1, 33, KEY, 3, 0, 0, 0, {0, 0, 0}},
    {"bench, largest set", 0, 64, 64, 269, MAP, SECRET, ANSWER, KEY, 3, 1, 2, 0, {0, 0, 0}},
    {"bench, pad of six bits", 0, 2, 2, 1, 75, SECRET, 34, KEY, 3, 1, 2, 0, {0, 0, 0}},
    {"Keccak", 1, 1, 1, 1, 66, SECRET, 33, KEY, 3, 0, 0, 0, {0, 0, 0}},
    {"Keccak, largest set", 1, 64, 64, 269, MAP, SECRET, ANSWER, KEY, 3, 1, 2, 0, {0, 0, 0}},
};

static uint8_t map[MAP + GUARD], secret[SECRET + GUARD], answer[ANSWER + GUARD], key[KEY + GUARD], kept[KEY + GUARD];

// Whether bytes are a packed vector of m elements: five bits each, none of them 31, and zeros behind the last.
static int vector(const uint8_t *bytes, size_t len, size_t m) {
    unsigned element = 0;
    for (size_t bit = 0; bit < 8 * len; bit++) {
        unsigned set = bytes[bit / 8] >> bit % 8 & 1;
        if (bit >= 5 * m) {
            if (set) return 0;
            continue;
        }
        element |= set << bit % 5;
        if (bit % 5 == 4) {
            if (element == 31) return 0;
            element = 0;
        }
    }
    return 1;
}

static void make(const struct call *c) {
    uint64_t told[4] = {FILL, FILL, FILL, FILL};
    memset(map, FILL, sizeof map);
    memset(secret, FILL, sizeof secret);
    memset(answer, FILL, sizeof answer);
    memset(key, FILL, sizeof key);
    memset(key, c->k, 32);
    memset(key + 32, c->s, 32);
    memcpy(kept, key, sizeof key);
    uint32_t status = beltscarp_make_key(c->suite, c->n, c->m, c->r, map, c->map_len, secret, c->secret_len, key, c->key_len,
                                         answer, c->answer_len, told, c->told_len);
    check(c->name, "status", status == c->status);
    check(c->name, "every byte of the secret buffer is zero", all(secret, c->secret_len, 0));
    check(c->name, "no byte behind the secret buffer is touched", all(secret + c->secret_len, sizeof secret - c->secret_len, FILL));
    if (c->status != 0) check(c->name, "every byte of the answer is zero", all(answer, c->answer_len, 0));
    check(c->name, "no byte behind the answer is touched", all(answer + c->answer_len, sizeof answer - c->answer_len, FILL));
    check(c->name, "no byte behind the map is touched", all(map + c->map_len, sizeof map - c->map_len, FILL));
    check(c->name, "the key is only read", memcmp(key, kept, sizeof key) == 0);
    check(c->name, "number, layer and place", told_these(told, c->told_len, c->told));
    if (c->status == 0) {
        check(c->name, "the public key begins with the seed S", all(answer, 32, c->s));
        check(c->name, "the public key holds elements and a pad of zeros", vector(answer + 32, c->answer_len - 32, c->m));
    }
}

// Worked by hand: set (1, 1, 1), K and S zeros, bench. s is 9, both coefficients are 8: 8·9·9 + 8·9 = 720 = 23·31 + 7.
static void worked(void) {
    static const struct call C = {"worked case", 0, 1, 1, 1, 66, SECRET, 33, KEY, 3, 0, 0, 0, {0, 0, 0}};
    make(&C);
    check(C.name, "32 zero bytes, then 07", all(answer, 32, 0) && answer[32] == 7);
}

// The vectors of a signature of the smallest set: zeros are lawful, and a 31 is refused at its byte.
static void vectors(void) {
    uint8_t signature[99] = {0};
    uint64_t told[3] = {FILL, FILL, FILL};
    uint32_t status = beltscarp_check_vectors(1, 1, 1, signature, sizeof signature, told, 3);
    check("vectors", "lawful", status == 0 && told[0] == 0 && told[1] == 0 && told[2] == 0);
    signature[65] = 31;
    status = beltscarp_check_vectors(1, 1, 1, signature, sizeof signature, told, 3);
    check("vectors", "refused 10 1 65", status == 1 && told[0] == 10 && told[1] == 1 && told[2] == 65);
    status = beltscarp_check_vectors(1, 1, 1, signature, sizeof signature - 1, told, 3);
    check("vectors", "refused 9 3 0", status == 1 && told[0] == 9 && told[1] == 3 && told[2] == 0);
    status = beltscarp_check_vectors(1, 1, 270, signature, sizeof signature, told, 3);
    check("vectors", "refused 1 3 0", status == 1 && told[0] == 1 && told[1] == 3 && told[2] == 0);
    status = beltscarp_check_vectors(1, 1, 1, signature, sizeof signature, told, 2);
    check("vectors", "two places for the numbers", status == 2 && told[0] == 0 && told[1] == 0);
}

// What the other functions refuse.
static void refusals(void) {
    uint64_t lanes[25] = {0};
    uint8_t out[33], cs[2] = {8, 8}, x[1] = {9}, y[1] = {30};
    check("Keccak-f", "25 lanes", beltscarp_keccak_f(lanes, 25, 1) == 0 && lanes[0] == 0xF1258F7940E1DDE7);
    check("Keccak-f", "24 lanes", beltscarp_keccak_f(lanes, 24, 1) == 1 && lanes[0] == 0 && lanes[24] != 0);
    memset(out, FILL, sizeof out);
    check("SHA3-256", "31 bytes", beltscarp_sha3_256(cs, 2, out, 31) == 1 && all(out, 31, 0) && out[31] == FILL);
    memset(out, FILL, sizeof out);
    check("SHA3-256", "32 bytes", beltscarp_sha3_256(cs, 0, out, 32) == 0 && out[0] == 0xA7 && out[31] == 0x4A && out[32] == FILL);
    beltscarp_shake128(cs, 0, out, 2);
    check("SHAKE128", "two bytes", out[0] == 0x7F && out[1] == 0x9C);
    check("F", "in one variable", beltscarp_map(cs, 2, x, 1, out, 1) == 0 && out[0] == 7);
    check("F", "coefficients short", beltscarp_map(cs, 1, x, 1, out, 1) == 1 && out[0] == 0);
    // 2·8·9·30 = 4320 = 139·31 + 11
    check("G", "in one variable", beltscarp_polar(cs, 2, x, 1, y, 1, out, 1) == 0 && out[0] == 11);
    check("G", "second vector short", beltscarp_polar(cs, 2, x, 1, y, 0, out, 1) == 1 && out[0] == 0);
    x[0] = 31;
    out[0] = FILL;
    check("F", "31 in the vector", beltscarp_map(cs, 2, x, 1, out, 1) == 1 && out[0] == 0);
    out[0] = FILL;
    check("G", "31 in a vector", beltscarp_polar(cs, 2, y, 1, x, 1, out, 1) == 1 && out[0] == 0);
    cs[1] = 31;
    out[0] = FILL;
    check("F", "31 among the coefficients", beltscarp_map(cs, 2, y, 1, out, 1) == 1 && out[0] == 0);
}

int main(void) {
    for (size_t i = 0; i < sizeof CALLS / sizeof CALLS[0]; i++) make(&CALLS[i]);
    worked();
    vectors();
    refusals();
    return finish();
}
