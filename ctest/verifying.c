// Verification through the C interface: each refusal in its order, by a signature of the smallest set that is worked by hand, and by
// the program's sample and its damaged twin.
#include "beltscarp.h"
#include "common.h"

#include <string.h>

enum { MAP = 154432, LIST = 17216, SIGNATURE = 40952, KEY = 72, MESSAGE = 65536 };

// One call of verification: the worked case, but for one byte of the key and one of the signature, and what must come of it.
struct call {
    const char *name;
    uint32_t suite;
    size_t n, m, r;
    size_t message_len, map_len, list_len, key_len, signature_len, told_len;
    size_t key_at, at; // where a byte is changed
    uint8_t key_to, to;
    uint32_t status;
    uint64_t told[3];
};

// What the set wants; and a byte that is left as it is: S begins with 00, and R with 03.
#define SMALL 66, 64, 33, 99, 3
#define SAME_KEY 0
#define SAME 0

static const struct call CALLS[] = {
    {"accepted", 0, 1, 1, 1, 0, SMALL, SAME_KEY, SAME, 0, 3, 0, {0, 0, 0}},
    {"longer map and list", 0, 1, 1, 1, 0, 67, 65, 33, 99, 3, SAME_KEY, SAME, 0, 3, 0, {0, 0, 0}},
    {"n of 0", 0, 0, 1, 1, 0, SMALL, SAME_KEY, SAME, 0, 3, 1, {1, 3, 0}},
    {"m of 65", 0, 1, 65, 1, 0, SMALL, SAME_KEY, SAME, 0, 3, 1, {1, 3, 0}},
    {"r of 270", 0, 1, 1, 270, 0, SMALL, SAME_KEY, SAME, 0, 3, 1, {1, 3, 0}},
    {"bad set before all else", 0, 0, 0, 0, MESSAGE + 1, 0, 0, 0, 0, 3, SAME_KEY, SAME, 0, 3, 1, {1, 3, 0}},
    {"message too long", 0, 1, 1, 1, MESSAGE + 1, SMALL, SAME_KEY, SAME, 0, 3, 1, {2, 3, 0}},
    {"message before buffers", 0, 1, 1, 1, MESSAGE + 1, 0, 0, 0, 0, 3, SAME_KEY, SAME, 0, 3, 1, {2, 3, 0}},
    {"map one byte short", 0, 1, 1, 1, 0, 65, 64, 33, 99, 3, SAME_KEY, SAME, 0, 3, 1, {3, 3, 1}},
    {"map before list", 0, 1, 1, 1, 0, 65, 63, 33, 99, 3, SAME_KEY, SAME, 0, 3, 1, {3, 3, 1}},
    {"list one byte short", 0, 1, 1, 1, 0, 66, 63, 33, 99, 3, SAME_KEY, SAME, 0, 3, 1, {3, 3, 2}},
    {"list before key", 0, 1, 1, 1, 0, 66, 63, 32, 99, 3, SAME_KEY, SAME, 0, 3, 1, {3, 3, 2}},
    {"key one byte short", 0, 1, 1, 1, 0, 66, 64, 32, 99, 3, SAME_KEY, SAME, 0, 3, 1, {7, 3, 0}},
    {"key one byte long", 0, 1, 1, 1, 0, 66, 64, 34, 99, 3, SAME_KEY, SAME, 0, 3, 1, {7, 3, 0}},
    {"key before signature", 0, 1, 1, 1, 0, 66, 64, 32, 98, 3, SAME_KEY, 64, 0, 0x1F, 1, {7, 3, 0}},
    {"31 in the key", 0, 1, 1, 1, 0, SMALL, 32, SAME, 0x1F, 3, 1, {8, 1, 0}},
    {"pad of the key", 0, 1, 1, 1, 0, SMALL, 32, SAME, 0x27, 3, 1, {8, 1, 1}},
    {"31 in the key before its pad", 0, 1, 1, 1, 0, SMALL, 32, SAME, 0xFF, 3, 1, {8, 1, 0}},
    {"31 in the key before the signature's length", 0, 1, 1, 1, 0, 66, 64, 33, 98, 3, 32, SAME, 0x1F, 3, 1, {8, 1, 0}},
    {"signature one byte short", 0, 1, 1, 1, 0, 66, 64, 33, 98, 3, SAME_KEY, SAME, 0, 3, 1, {9, 3, 0}},
    {"signature one byte long", 0, 1, 1, 1, 0, 66, 64, 33, 100, 3, SAME_KEY, SAME, 0, 3, 1, {9, 3, 0}},
    {"no signature", 0, 1, 1, 1, 0, 66, 64, 33, 0, 3, SAME_KEY, SAME, 0, 3, 1, {9, 3, 0}},
    {"length before vectors", 0, 1, 1, 1, 0, 66, 64, 33, 98, 3, SAME_KEY, 64, 0, 0x1F, 1, {9, 3, 0}},
    {"31 in t1", 0, 1, 1, 1, 0, SMALL, SAME_KEY, 64, 0, 0x1F, 1, {10, 1, 64}},
    {"31 in e1", 0, 1, 1, 1, 0, SMALL, SAME_KEY, 65, 0, 0x1F, 1, {10, 1, 65}},
    {"31 in the response", 0, 1, 1, 1, 0, SMALL, SAME_KEY, 66, 0, 0x1F, 1, {10, 1, 66}},
    {"31 before the pad of its byte", 0, 1, 1, 1, 0, SMALL, SAME_KEY, 66, 0, 0xFF, 1, {10, 1, 66}},
    {"pad of t1", 0, 1, 1, 1, 0, SMALL, SAME_KEY, 64, 0, 0x38, 1, {11, 1, 64}},
    {"pad of e1", 0, 1, 1, 1, 0, SMALL, SAME_KEY, 65, 0, 0x3C, 1, {11, 1, 65}},
    {"pad of the response", 0, 1, 1, 1, 0, SMALL, SAME_KEY, 66, 0, 0x30, 1, {11, 1, 66}},
    {"another R", 0, 1, 1, 1, 0, SMALL, SAME_KEY, 0, 0, 4, 1, {12, 3, 0}},
    {"another digest of the list", 0, 1, 1, 1, 0, SMALL, SAME_KEY, 63, 0, 4, 1, {12, 3, 0}},
    {"another response", 0, 1, 1, 1, 0, SMALL, SAME_KEY, 66, 0, 0x11, 1, {12, 3, 0}},
    {"another commitment", 0, 1, 1, 1, 0, SMALL, SAME_KEY, 98, 0, 1, 1, {12, 3, 0}},
    {"another key", 0, 1, 1, 1, 0, SMALL, 32, SAME, 8, 3, 1, {12, 3, 0}},
    {"another message", 0, 1, 1, 1, 1, SMALL, SAME_KEY, SAME, 0, 3, 1, {12, 3, 0}},
    {"another suite", 1, 1, 1, 1, 0, SMALL, SAME_KEY, SAME, 0, 3, 1, {12, 3, 0}},
    {"unknown suite", 2, 1, 1, 1, 0, SMALL, SAME_KEY, SAME, 0, 3, 2, {0, 0, 0}},
    {"two places for the numbers", 0, 1, 1, 1, 0, 66, 64, 33, 99, 2, SAME_KEY, SAME, 0, 3, 2, {0, 0, 0}},
};

static uint8_t map[MAP + GUARD], list[LIST + GUARD], key[KEY + GUARD], signature[SIGNATURE + GUARD], kept[SIGNATURE + GUARD];
static uint8_t message[MESSAGE + GUARD];

// The public key and the signature of docs/SCHEME.md's worked case.
static void worked(void) {
    static const uint8_t HEAD[3] = {0x2B, 0x39, 0x1B}, TAIL[6] = {0x18, 0x1C, 0x10, 0x18, 0x18, 0x18};
    memset(key, 0, sizeof key);
    key[32] = 7;
    memset(signature, 3, 64);
    memcpy(signature + 32, HEAD, 3);
    memset(signature + 64, 0, sizeof signature - 64);
    memcpy(signature + 64, TAIL, 6);
}

static void ask(const struct call *c) {
    uint64_t told[4] = {FILL, FILL, FILL, FILL};
    worked();
    memset(map, FILL, sizeof map);
    memset(list, FILL, sizeof list);
    memset(message, 1, sizeof message);
    key[c->key_at] = c->key_to;
    signature[c->at] = c->to;
    memcpy(kept, signature, sizeof signature);
    uint32_t status = beltscarp_verify(c->suite, c->n, c->m, c->r, message, c->message_len, map, c->map_len, list, c->list_len, key,
                                       c->key_len, signature, c->signature_len, told, c->told_len);
    check(c->name, "status", status == c->status);
    check(c->name, "number, layer and place", told_these(told, c->told_len, c->told));
    check(c->name, "no byte behind the map is touched", all(map + c->map_len, sizeof map - c->map_len, FILL));
    check(c->name, "no byte behind the list is touched", all(list + c->list_len, sizeof list - c->list_len, FILL));
    check(c->name, "the signature is only read", memcmp(signature, kept, sizeof signature) == 0);
}

// With F7 as S no byte of the stream of label 8 gives an element; with 00 in R and 0B in the digest h1 is 14 throughout, and none of
// label 11 does.
static void drawings(void) {
    static const uint64_t MAP_SHORT[3] = {17, 2, 8}, CHALLENGES_SHORT[3] = {17, 2, 11}, ELEMENT[3] = {10, 1, 64};
    uint64_t told[4] = {FILL, FILL, FILL, FILL};
    worked();
    memset(signature, 0, 32);
    memset(signature + 32, 0x0B, 32);
    uint32_t status = beltscarp_verify(0, 1, 1, 1, message, 0, map, 66, list, 64, key, 33, signature, 99, told, 3);
    check("no challenges", "refused 17 2 11", status == 1 && told_these(told, 3, CHALLENGES_SHORT));
    memset(key, 0xF7, 32);
    status = beltscarp_verify(0, 1, 1, 1, message, 0, map, 66, list, 64, key, 33, signature, 99, told, 3);
    check("no map before no challenges", "refused 17 2 8", status == 1 && told_these(told, 3, MAP_SHORT));
    signature[64] = 31;
    status = beltscarp_verify(0, 1, 1, 1, message, 0, map, 66, list, 64, key, 33, signature, 99, told, 3);
    check("31 before no map", "refused 10 1 64", status == 1 && told_these(told, 3, ELEMENT));
}

// The program's sample and its twin, under the key of the bytes 00 01 .. 3F.
static void sample(const char *text, const char *path, const char *twin) {
    static const uint64_t ACCEPTED[3] = {0, 0, 0}, REFUSED[3] = {10, 1, 20133};
    uint8_t secret_key[64], secret[1024];
    uint64_t told[4] = {FILL, FILL, FILL, FILL};
    for (size_t i = 0; i < 64; i++) secret_key[i] = (uint8_t)i;
    size_t len = read_file(text, message, MESSAGE);
    uint32_t status = beltscarp_make_key(1, 64, 64, 269, map, MAP, secret, 1024, secret_key, 64, key, KEY, told, 3);
    check("sample", "it can be read", status == 0 && len != 0 && read_file(path, signature, SIGNATURE) == SIGNATURE);
    status = beltscarp_verify(1, 64, 64, 269, message, len, map, MAP, list, LIST, key, KEY, signature, SIGNATURE, told, 3);
    check("sample", "accepted", status == 0 && told_these(told, 3, ACCEPTED));
    check("twin", "it can be read", read_file(twin, signature, SIGNATURE) == SIGNATURE);
    status = beltscarp_verify(1, 64, 64, 269, message, len, map, MAP, list, LIST, key, KEY, signature, SIGNATURE, told, 3);
    check("twin", "refused 10 1 20133", status == 1 && told_these(told, 3, REFUSED));
}

int main(int argc, char **argv) {
    if (argc != 4) {
        fprintf(stderr, "usage: verifying MESSAGE SIGNATURE TWIN\n");
        return 1;
    }
    for (size_t i = 0; i < sizeof CALLS / sizeof CALLS[0]; i++) ask(&CALLS[i]);
    drawings();
    sample(argv[1], argv[2], argv[3]);
    return finish();
}
