// What the tests share: counting, and looking at bytes.
#ifndef COMMON_H
#define COMMON_H

#include <stddef.h>
#include <stdint.h>
#include <stdio.h>

// What buffers hold before a call, and how many bytes behind them are watched.
enum { FILL = 0xA5, GUARD = 64 };

static int passed, failed;

static inline void check(const char *call, const char *what, int holds) {
    if (holds) {
        passed++;
    } else {
        failed++;
        printf("FAILED %s: %s\n", call, what);
    }
}

static inline int all(const uint8_t *bytes, size_t len, uint8_t value) {
    for (size_t i = 0; i < len; i++) {
        if (bytes[i] != value) return 0;
    }
    return 1;
}

// Whether a call told these numbers, and touched nothing behind its places.
static inline int told_these(const uint64_t told[4], size_t places, const uint64_t wanted[3]) {
    int same = told[3] == FILL;
    for (size_t i = 0; i < 3; i++) same = same && told[i] == (i < places ? wanted[i] : FILL);
    return same;
}

// The bytes of a file, or none.
static inline size_t read_file(const char *path, uint8_t *bytes, size_t most) {
    FILE *f = fopen(path, "rb");
    if (f == NULL) return 0;
    size_t len = fread(bytes, 1, most, f);
    fclose(f);
    return len;
}

static inline int finish(void) {
    printf("%d passed, %d failed\n", passed, failed);
    return failed != 0;
}

#endif
