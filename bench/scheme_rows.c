// Key making, signing and verification on the sample, by the kit and by the baselines: compared and measured, and the kit's stack.
#include "scheme_rows.h"
#include "baseline.h"
#include "beltscarp.h"
#include "measure.h"

#include <stdio.h>
#include <string.h>

enum { MAP = 154432, LIST = 17216, SIGNATURE = 40952, MESSAGE = 65536 };

static uint8_t map[MAP], list[LIST], secret[1024], key[64], public_key[72], answer[72];
static uint8_t message[MESSAGE], sample[SIGNATURE], signature[SIGNATURE];
static size_t message_len;
static uint64_t told[3];
static volatile uint32_t status;

int read_sample(const char *message_path, const char *signature_path) {
    FILE *m = fopen(message_path, "rb"), *s = fopen(signature_path, "rb");
    if (m == NULL || s == NULL) return 1;
    message_len = fread(message, 1, MESSAGE, m);
    size_t len = fread(sample, 1, SIGNATURE, s);
    fclose(m);
    fclose(s);
    // the secret key of the sample is the bytes 00 01 .. 3F
    for (size_t i = 0; i < 64; i++) key[i] = (uint8_t)i;
    return len != SIGNATURE;
}

static void kit_key(void) {
    status = beltscarp_make_key(BELTSCARP_KECCAK, 64, 64, 269, map, MAP, secret, sizeof secret, key, 64, answer, 72, told, 3);
}
static void kit_sign(void) {
    status = beltscarp_sign(BELTSCARP_KECCAK, 64, 64, 269, message, message_len, map, MAP, list, LIST, secret, sizeof secret, key, 64,
                            signature, SIGNATURE, told, 3);
}
static void kit_verify(void) {
    status = beltscarp_verify(BELTSCARP_KECCAK, 64, 64, 269, message, message_len, map, MAP, list, LIST, public_key, 72, sample,
                              SIGNATURE, told, 3);
}
static void kit_vectors(void) { status = beltscarp_check_vectors(64, 64, 269, sample, SIGNATURE, told, 3); }

#define PLAIN(prefix)                                                                                                 \
    static void prefix##_key(void) { status = (uint32_t)prefix##_make_key(map, secret, key, answer); }                \
    static void prefix##_run_sign(void) {                                                                             \
        status = (uint32_t)prefix##_sign(message, message_len, map, key, signature);                                  \
    }                                                                                                                 \
    static void prefix##_run_verify(void) {                                                                           \
        status = (uint32_t)prefix##_verify(message, message_len, map, public_key, sample);                            \
    }

PLAIN(gcc)
#ifdef WITH_CLANG
PLAIN(clang)
#endif

// Whether the sample is signed as it stands, accepted, and no longer accepted with one bit of its last commitment turned.
static void try_sample(const char *name, void (*sign)(void), void (*verify)(void)) {
    memset(signature, 0x5A, SIGNATURE);
    sign();
    if (status != 0 || memcmp(signature, sample, SIGNATURE) != 0) {
        printf("%s, signing: ", name);
        differ("the signature is not the sample");
    }
    verify();
    if (status != 0) {
        printf("%s, verification: ", name);
        differ("the sample is not accepted");
    }
    sample[SIGNATURE - 1] ^= 1;
    verify();
    if (status == 0) {
        printf("%s, verification: ", name);
        differ("a changed sample is accepted");
    }
    sample[SIGNATURE - 1] ^= 1;
}

void compare_scheme(void) {
    kit_vectors();
    if (status != 0) differ("check of the vectors, status");
    agree("gcc key making", kit_key, gcc_key, answer, sizeof answer, 0);
#ifdef WITH_CLANG
    agree("clang key making", kit_key, clang_key, answer, sizeof answer, 0);
#endif
    kit_key();
    if (status != 0) differ("key making, status");
    memcpy(public_key, answer, sizeof answer);
    try_sample("gcc", gcc_run_sign, gcc_run_verify);
#ifdef WITH_CLANG
    try_sample("clang", clang_run_sign, clang_run_verify);
#endif
    try_sample("kit", kit_sign, kit_verify);
}

void scheme_rows(void) {
    struct way vectors[] = {WAY("kit", kit_vectors)};
    table("check of a signature's vectors", vectors, 1, 1, 1, 0);
    printf("\n| what, (64, 64, 269), Keccak suite | implementation | milliseconds | kit ÷ this | |\n|---|---|---|---|---|\n");
    struct way keys[] = {WAY("kit", kit_key), WAY("gcc", gcc_key) CLANG("clang", clang_key)};
    table("key making", keys, COUNT(keys), 1, 1000, 0);
    struct way signs[] = {WAY("kit", kit_sign), WAY("gcc", gcc_run_sign) CLANG("clang", clang_run_sign)};
    table("signing", signs, COUNT(signs), 1, 1000, 0);
    struct way verifies[] = {WAY("kit", kit_verify), WAY("gcc", gcc_run_verify) CLANG("clang", clang_run_verify)};
    table("verification", verifies, COUNT(verifies), 1, 1000, 0);
    printf("\n| call of the kit | bytes of stack |\n|---|---|\n");
    printf("| key making | %zu |\n", depth(kit_key));
    printf("| signing | %zu |\n", depth(kit_sign));
    printf("| verification | %zu |\n", depth(kit_verify));
}
