// Signing through the C interface: after each way out the secret buffer is zeros, and so is the answer of a refused call; what is
// signed is accepted under the key of the same secret key.
#include "beltscarp.h"
#include "common.h"

#include <string.h>

enum { MAP = 154432, LIST = 17216, SECRET = 1024, ANSWER = 40952, KEY = 64, MESSAGE = 65536 };

// One call of signing: what it is given, and what must come of it.
struct call {
    const char *name;
    uint32_t suite;
    size_t n, m, r;
    size_t message_len, map_len, list_len, secret_len, answer_len, key_len, told_len;
    uint8_t k, s; // the byte that fills the seed K, and S
    uint32_t status;
    uint64_t told[3];
};

// What the smallest set wants, and the largest.
#define SMALL 66, 64, SECRET, 99, KEY, 3
#define LARGE MAP, LIST, SECRET, ANSWER, KEY, 3

static const struct call CALLS[] = {
    {"n of 0", 0, 0, 1, 1, 0, SMALL, 0, 0, 1, {1, 3, 0}},
    {"n of 65", 0, 65, 1, 1, 0, LARGE, 0, 0, 1, {1, 3, 0}},
    {"m of 0", 0, 1, 0, 1, 0, SMALL, 0, 0, 1, {1, 3, 0}},
    {"m of 65", 1, 1, 65, 1, 0, LARGE, 0, 0, 1, {1, 3, 0}},
    {"r of 0", 0, 1, 1, 0, 0, SMALL, 0, 0, 1, {1, 3, 0}},
    {"r of 270", 1, 64, 64, 270, 0, LARGE, 0, 0, 1, {1, 3, 0}},
    {"bad set before all else", 0, 0, 0, 0, MESSAGE + 1, 0, 0, 0, 0, 0, 3, 0, 0, 1, {1, 3, 0}},
    {"message too long", 0, 1, 1, 1, MESSAGE + 1, SMALL, 0, 0, 1, {2, 3, 0}},
    {"message too long, largest set", 1, 64, 64, 269, MESSAGE + 1, LARGE, 1, 2, 1, {2, 3, 0}},
    {"message before buffers", 0, 1, 1, 1, MESSAGE + 1, 0, 0, 0, 0, 0, 3, 0, 0, 1, {2, 3, 0}},
    {"map one byte short", 0, 1, 1, 1, 0, 65, 64, SECRET, 99, KEY, 3, 0, 0, 1, {3, 3, 1}},
    {"map one byte short, largest set", 1, 64, 64, 269, 5, MAP - 1, LIST, SECRET, ANSWER, KEY, 3, 1, 2, 1, {3, 3, 1}},
    {"map before list", 0, 1, 1, 1, 0, 65, 63, SECRET, 99, KEY, 3, 0, 0, 1, {3, 3, 1}},
    {"list one byte short", 0, 1, 1, 1, 0, 66, 63, SECRET, 99, KEY, 3, 0, 0, 1, {3, 3, 2}},
    {"list one byte short, largest set", 1, 64, 64, 269, 5, MAP, LIST - 1, SECRET, ANSWER, KEY, 3, 1, 2, 1, {3, 3, 2}},
    {"no list", 0, 1, 1, 1, 0, 66, 0, SECRET, 99, KEY, 3, 0, 0, 1, {3, 3, 2}},
    {"list before secret", 0, 1, 1, 1, 0, 66, 63, SECRET - 1, 99, KEY, 3, 0, 0, 1, {3, 3, 2}},
    {"secret one byte short", 0, 1, 1, 1, 0, 66, 64, SECRET - 1, 99, KEY, 3, 0, 0, 1, {3, 3, 3}},
    {"secret one byte short, largest set", 1, 64, 64, 269, 5, MAP, LIST, SECRET - 1, ANSWER, KEY, 3, 1, 2, 1, {3, 3, 3}},
    {"no secret", 0, 1, 1, 1, 0, 66, 64, 0, 99, KEY, 3, 0, 0, 1, {3, 3, 3}},
    {"secret before answer", 0, 1, 1, 1, 0, 66, 64, SECRET - 1, 98, KEY, 3, 0, 0, 1, {3, 3, 3}},
    {"answer one byte short", 0, 1, 1, 1, 0, 66, 64, SECRET, 98, KEY, 3, 0, 0, 1, {3, 3, 4}},
    {"answer one byte long", 0, 1, 1, 1, 0, 66, 64, SECRET, 100, KEY, 3, 0, 0, 1, {3, 3, 4}},
    {"answer one byte short, largest set", 1, 64, 64, 269, 5, MAP, LIST, SECRET, ANSWER - 1, KEY, 3, 1, 2, 1, {3, 3, 4}},
    {"answer one byte long, largest set", 1, 64, 64, 269, 5, MAP, LIST, SECRET, ANSWER + 1, KEY, 3, 1, 2, 1, {3, 3, 4}},
    {"answer before key", 0, 1, 1, 1, 0, 66, 64, SECRET, 98, KEY - 1, 3, 0, 0, 1, {3, 3, 4}},
    {"key one byte short", 0, 1, 1, 1, 0, 66, 64, SECRET, 99, KEY - 1, 3, 0, 0, 1, {7, 3, 0}},
    {"key one byte long", 0, 1, 1, 1, 0, 66, 64, SECRET, 99, KEY + 1, 3, 0, 0, 1, {7, 3, 0}},
    {"key before drawing", 0, 1, 1, 1, 0, 66, 64, SECRET, 99, KEY - 1, 3, 0xF6, 0xF7, 1, {7, 3, 0}},
    // With F6 as K the stream of label 9 is FF throughout, and with F7 as S that of label 8: no byte gives an element.
    {"no secret vector", 0, 1, 1, 1, 0, SMALL, 0xF6, 0, 1, {17, 2, 9}},
    {"no secret vector, largest set", 0, 64, 64, 269, 5, LARGE, 0xF6, 0, 1, {17, 2, 9}},
    {"no map drawn", 0, 1, 1, 1, 0, SMALL, 0, 0xF7, 1, {17, 2, 8}},
    {"no map drawn, largest set", 0, 64, 64, 269, 5, LARGE, 0, 0xF7, 1, {17, 2, 8}},
    {"no secret vector before no map", 0, 1, 1, 1, 0, SMALL, 0xF6, 0xF7, 1, {17, 2, 9}},
    // With 19 as K, 269 rounds and no message 29 of 32 bytes of h1 are 34, and those of the stream of label 11 are 3F: at most 36 of
    // 366 give an element.
    {"no challenges", 0, 1, 1, 269, 0, 66, LIST, SECRET, 9479, KEY, 3, 0x19, 0, 1, {17, 2, 11}},
    {"unknown suite", 2, 1, 1, 1, 0, SMALL, 0, 0, 2, {0, 0, 0}},
    {"unknown suite, secret short", 2, 1, 1, 1, 0, 66, 64, SECRET - 1, 99, KEY, 3, 0, 0, 2, {0, 0, 0}},
    {"two places for the numbers", 0, 1, 1, 1, 0, 66, 64, SECRET, 99, KEY, 2, 0, 0, 2, {0, 0, 0}},
    {"bench", 0, 1, 1, 1, 0, SMALL, 0, 0, 0, {0, 0, 0}},
    {"bench, a message", 0, 1, 1, 1, 5, SMALL, 0, 0, 0, {0, 0, 0}},
    {"bench, the longest message", 0, 1, 1, 1, MESSAGE, SMALL, 0, 0, 0, {0, 0, 0}},
    {"bench, longer map, list and secret", 0, 1, 1, 1, 5, 67, 65, SECRET + 1, 99, KEY, 3, 0, 0, 0, {0, 0, 0}},
    {"bench, vectors of two lengths", 0, 3, 9, 7, 5, 167, 448, SECRET, 358, KEY, 3, 1, 2, 0, {0, 0, 0}},
    {"bench, largest set", 0, 64, 64, 269, 5, LARGE, 1, 2, 0, {0, 0, 0}},
    {"Keccak", 1, 1, 1, 1, 0, SMALL, 0, 0, 0, {0, 0, 0}},
    {"Keccak, vectors of two lengths", 1, 9, 3, 7, 5, 246, 448, SECRET, 386, KEY, 3, 1, 2, 0, {0, 0, 0}},
    {"Keccak, largest set", 1, 64, 64, 269, 5, LARGE, 1, 2, 0, {0, 0, 0}},
    {"Keccak, the longest message", 1, 64, 64, 269, MESSAGE, LARGE, 1, 2, 0, {0, 0, 0}},
};

static uint8_t map[MAP + GUARD], list[LIST + GUARD], secret[SECRET + GUARD], answer[ANSWER + GUARD], key[KEY + GUARD];
static uint8_t kept[KEY + GUARD], message[MESSAGE + GUARD], message_kept[MESSAGE + GUARD];

// The public key of the call's secret key, under which the answer must be accepted, and with its last bit changed must not.
static void accepted(const struct call *c) {
    uint8_t public_key[72];
    uint64_t told[3];
    size_t len = 32 + (5 * c->m + 7) / 8;
    uint32_t status = beltscarp_make_key(c->suite, c->n, c->m, c->r, map, c->map_len, secret, SECRET, key, KEY, public_key, len, told, 3);
    check(c->name, "the public key is made", status == 0);
    status = beltscarp_verify(c->suite, c->n, c->m, c->r, message, c->message_len, map, c->map_len, list, c->list_len, public_key, len,
                              answer, c->answer_len, told, 3);
    check(c->name, "the signature is accepted", status == 0 && told[0] == 0 && told[1] == 0 && told[2] == 0);
    answer[c->answer_len - 1] ^= 0x80;
    status = beltscarp_verify(c->suite, c->n, c->m, c->r, message, c->message_len, map, c->map_len, list, c->list_len, public_key, len,
                              answer, c->answer_len, told, 3);
    check(c->name, "a changed one is refused 12 3 0", status == 1 && told[0] == 12 && told[1] == 3 && told[2] == 0);
    answer[c->answer_len - 1] ^= 0x80;
}

static void make(const struct call *c) {
    uint64_t told[4] = {FILL, FILL, FILL, FILL};
    memset(map, FILL, sizeof map);
    memset(list, FILL, sizeof list);
    memset(secret, FILL, sizeof secret);
    memset(answer, FILL, sizeof answer);
    memset(key, FILL, sizeof key);
    memset(key, c->k, 32);
    memset(key + 32, c->s, 32);
    memcpy(kept, key, sizeof key);
    for (size_t i = 0; i < sizeof message; i++) message[i] = (uint8_t)(i * i % 251);
    memcpy(message_kept, message, sizeof message);
    uint32_t status = beltscarp_sign(c->suite, c->n, c->m, c->r, message, c->message_len, map, c->map_len, list, c->list_len, secret,
                                     c->secret_len, key, c->key_len, answer, c->answer_len, told, c->told_len);
    check(c->name, "status", status == c->status);
    check(c->name, "every byte of the secret buffer is zero", all(secret, c->secret_len, 0));
    check(c->name, "no byte behind the secret buffer is touched", all(secret + c->secret_len, sizeof secret - c->secret_len, FILL));
    if (c->status != 0) check(c->name, "every byte of the answer is zero", all(answer, c->answer_len, 0));
    check(c->name, "no byte behind the answer is touched", all(answer + c->answer_len, sizeof answer - c->answer_len, FILL));
    check(c->name, "no byte behind the map is touched", all(map + c->map_len, sizeof map - c->map_len, FILL));
    check(c->name, "no byte behind the list is touched", all(list + c->list_len, sizeof list - c->list_len, FILL));
    check(c->name, "the key is only read", memcmp(key, kept, sizeof key) == 0);
    check(c->name, "the message is only read", memcmp(message, message_kept, sizeof message) == 0);
    check(c->name, "number, layer and place", told_these(told, c->told_len, c->told));
    if (c->status == 0 && status == 0) accepted(c);
}

// Worked by hand in docs/SCHEME.md: set (1, 1, 1), K and S zeros, bench, no message.
static void worked(void) {
    static const struct call C = {"worked case", 0, 1, 1, 1, 0, SMALL, 0, 0, 0, {0, 0, 0}};
    static const uint8_t HEAD[3] = {0x2B, 0x39, 0x1B}, TAIL[6] = {0x18, 0x1C, 0x10, 0x18, 0x18, 0x18};
    make(&C);
    check(C.name, "R", all(answer, 32, 3));
    check(C.name, "the digest of the list", memcmp(answer + 32, HEAD, 3) == 0 && all(answer + 35, 29, 3));
    check(C.name, "the rest", memcmp(answer + 64, TAIL, 6) == 0 && all(answer + 70, 29, 0));
}

// The program's sample, signed with the bytes 00 01 .. 3F as secret key.
static void sample(const char *text, const char *path) {
    static uint8_t wanted[ANSWER];
    uint64_t told[3];
    size_t len = read_file(text, message, MESSAGE);
    check("sample", "it can be read", len != 0 && read_file(path, wanted, ANSWER) == ANSWER);
    for (size_t i = 0; i < KEY; i++) key[i] = (uint8_t)i;
    uint32_t status = beltscarp_sign(BELTSCARP_KECCAK, 64, 64, 269, message, len, map, MAP, list, LIST, secret, SECRET, key, KEY, answer,
                                     ANSWER, told, 3);
    check("sample", "signed", status == 0);
    check("sample", "byte for byte", memcmp(answer, wanted, ANSWER) == 0);
    check("sample", "every byte of the secret buffer is zero", all(secret, SECRET, 0));
}

int main(int argc, char **argv) {
    if (argc != 3) {
        fprintf(stderr, "usage: signing MESSAGE SIGNATURE\n");
        return 1;
    }
    for (size_t i = 0; i < sizeof CALLS / sizeof CALLS[0]; i++) make(&CALLS[i]);
    worked();
    sample(argv[1], argv[2]);
    return finish();
}
