// Key making under the Keccak suite in plain C, for the largest set: draw the secret vector, draw the map, evaluate, pack.
#include "baseline.h"

#include <string.h>

int NAME(make_key)(uint8_t *map, uint8_t *secret, const uint8_t key[64], uint8_t answer[72]) {
    uint8_t v[64];
    if (NAME(draw)(9, key, secret, 64) || NAME(draw)(8, key + 32, map, 137216)) return 1;
    NAME(map)(map, secret, 64, 64, v);
    memcpy(answer, key + 32, 32);
    NAME(pack)(v, answer + 32);
    memset(secret, 0, 1024);
    return 0;
}
