// Runs the kit and the baselines in one process: compares what they give, then prints medians and ratios.
#include "baseline.h"
#include "beltscarp.h"
#include "measure.h"
#include "scheme_rows.h"

#ifdef WITH_OPENSSL
#include <openssl/evp.h>
#endif
#include <stdio.h>

enum { PERMUTATIONS = 200, MESSAGE = 65536, STREAM = 154432, COEFFICIENTS = 137216 };

static uint64_t lanes[25];
static uint8_t message[MESSAGE], stream[STREAM], digest[32];
static uint8_t coefficients[COEFFICIENTS], x[64], y[64], faulty[64], v[64];
static volatile uint32_t status;

static void kit_permute(void) { status = beltscarp_keccak_f(lanes, 25, PERMUTATIONS); }
static void kit_digest(void) { status = beltscarp_sha3_256(message, MESSAGE, digest, 32); }
static void kit_stream(void) { beltscarp_shake128(message, 33, stream, STREAM); }
static void kit_map(void) { status = beltscarp_map(coefficients, COEFFICIENTS, x, 64, v, 64); }
static void kit_map_checks(void) { status = beltscarp_map(coefficients, COEFFICIENTS, faulty, 64, v, 64); }
static void kit_polar(void) { status = beltscarp_polar(coefficients, COEFFICIENTS, x, 64, y, 64, v, 64); }
static void kit_polar_checks(void) { status = beltscarp_polar(coefficients, COEFFICIENTS, x, 64, faulty, 64, v, 64); }

#define PLAIN(prefix)                                                                                                 \
    static void prefix##_permute(void) {                                                                              \
        for (int i = 0; i < PERMUTATIONS; i++) prefix##_keccak_f(lanes);                                              \
    }                                                                                                                 \
    static void prefix##_permute_short(void) {                                                                        \
        for (int i = 0; i < PERMUTATIONS; i++) prefix##_keccak_f_short(lanes);                                        \
    }                                                                                                                 \
    static void prefix##_digest(void) { prefix##_sha3_256(message, MESSAGE, digest); }                                \
    static void prefix##_stream(void) { prefix##_shake128(message, 33, stream, STREAM); }                             \
    static void prefix##_run_map(void) { prefix##_map(coefficients, x, 64, 64, v); }                                  \
    static void prefix##_run_map_32(void) { prefix##_map_32(coefficients, x, 64, 64, v); }                            \
    static void prefix##_run_polar(void) { prefix##_polar(coefficients, x, y, 64, 64, v); }

PLAIN(gcc)
#ifdef WITH_CLANG
PLAIN(clang)
#endif

static void avx2_run_map(void) { avx2_map(coefficients, x, 64, 64, v); }
static void avx2_run_polar(void) { avx2_polar(coefficients, x, y, 64, 64, v); }

#ifdef WITH_OPENSSL
static void openssl_digest(void) {
    unsigned len = 32;
    EVP_Digest(message, MESSAGE, digest, &len, EVP_sha3_256(), NULL);
}
static void openssl_stream(void) {
    EVP_MD_CTX *c = EVP_MD_CTX_new();
    EVP_DigestInit_ex(c, EVP_shake128(), NULL);
    EVP_DigestUpdate(c, message, 33);
    EVP_DigestFinalXOF(c, stream, STREAM);
    EVP_MD_CTX_free(c);
}
#define OPENSSL(name, run) , WAY(name, run)
#else
#define OPENSSL(name, run)
#endif

static void compare(void) {
#define COMPARE(prefix)                                                                                               \
    agree(#prefix " Keccak-f", kit_permute, prefix##_permute, lanes, sizeof lanes, 1);                                \
    agree(#prefix " Keccak-f in loops", kit_permute, prefix##_permute_short, lanes, sizeof lanes, 1);                 \
    agree(#prefix " SHA3-256", kit_digest, prefix##_digest, digest, sizeof digest, 0);                                \
    agree(#prefix " SHAKE128", kit_stream, prefix##_stream, stream, sizeof stream, 0);                                \
    agree(#prefix " F", kit_map, prefix##_run_map, v, sizeof v, 0);                                                   \
    agree(#prefix " F with products of 32 bits", kit_map, prefix##_run_map_32, v, sizeof v, 0);                       \
    agree(#prefix " G", kit_polar, prefix##_run_polar, v, sizeof v, 0);
    COMPARE(gcc)
#ifdef WITH_CLANG
    COMPARE(clang)
#endif
    agree("AVX2 F", kit_map, avx2_run_map, v, sizeof v, 0);
    agree("AVX2 G", kit_polar, avx2_run_polar, v, sizeof v, 0);
#ifdef WITH_OPENSSL
    agree("OpenSSL SHA3-256", kit_digest, openssl_digest, digest, sizeof digest, 0);
    agree("OpenSSL SHAKE128", kit_stream, openssl_stream, stream, sizeof stream, 0);
#endif
    kit_map();
    if (status != 0) differ("F, status");
    kit_map_checks();
    if (status != 1) differ("F refused, status");
    kit_polar_checks();
    if (status != 1) differ("G refused, status");
}

// Numbers that look drawn, the same in each run.
static uint32_t seed = 1;
static uint32_t drawn(void) {
    seed = seed * 1664525 + 1013904223;
    return seed >> 16;
}

int main(int argc, char **argv) {
    if (argc != 3 || read_sample(argv[1], argv[2]) != 0) {
        fprintf(stderr, "usage: bench MESSAGE SIGNATURE\n");
        return 1;
    }
    for (size_t i = 0; i < MESSAGE; i++) message[i] = (uint8_t)drawn();
    for (size_t i = 0; i < COEFFICIENTS; i++) coefficients[i] = (uint8_t)(drawn() % 31);
    for (size_t i = 0; i < 64; i++) {
        x[i] = (uint8_t)(drawn() % 31);
        y[i] = (uint8_t)(drawn() % 31);
        faulty[i] = x[i];
    }
    faulty[63] = 31;
    compare();
    compare_scheme();
    if (differs) {
        printf("the implementations do not agree\n");
        return 1;
    }
    printf("all implementations agree\n\n");
    printf("| what | implementation | microseconds | kit ÷ this | without the kit's checks |\n|---|---|---|---|---|\n");

    struct way permute[] = {WAY("kit", kit_permute), WAY("gcc, written out", gcc_permute), WAY("gcc, loops", gcc_permute_short)
        CLANG("clang, written out", clang_permute) CLANG("clang, loops", clang_permute_short)};
    table("Keccak-f", permute, COUNT(permute), 1, PERMUTATIONS, 0);
    struct way digests[] = {WAY("kit", kit_digest), WAY("gcc", gcc_digest) CLANG("clang", clang_digest) OPENSSL("OpenSSL", openssl_digest)};
    table("SHA3-256, 65,536 bytes", digests, COUNT(digests), 1, 1, 0);
    struct way streams[] = {WAY("kit", kit_stream), WAY("gcc", gcc_stream) CLANG("clang", clang_stream) OPENSSL("OpenSSL", openssl_stream)};
    table("SHAKE128, 154,432 bytes", streams, COUNT(streams), 1, 1, 0);
    struct way maps[] = {WAY("kit", kit_map), WAY("kit's checks alone", kit_map_checks), WAY("gcc", gcc_run_map),
        WAY("gcc, products of 32 bits", gcc_run_map_32) CLANG("clang", clang_run_map)
        CLANG("clang, products of 32 bits", clang_run_map_32), WAY("AVX2 by hand", avx2_run_map)};
    table("F, n = m = 64", maps, COUNT(maps), 10, 1, 1);
    struct way polars[] = {WAY("kit", kit_polar), WAY("kit's checks alone", kit_polar_checks), WAY("gcc", gcc_run_polar)
        CLANG("clang", clang_run_polar), WAY("AVX2 by hand", avx2_run_polar)};
    table("G, n = m = 64", polars, COUNT(polars), 10, 1, 1);
    scheme_rows();
    return 0;
}
