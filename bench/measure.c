// Medians, ratios, comparisons, and how deep a call writes the stack.
#include "measure.h"

#include <pthread.h>
#include <stdio.h>
#include <stdlib.h>
#include <string.h>
#include <sys/mman.h>
#include <time.h>

int differs;

static double now(void) {
    struct timespec t;
    clock_gettime(CLOCK_THREAD_CPUTIME_ID, &t);
    return 1e9 * (double)t.tv_sec + (double)t.tv_nsec;
}

static int order(const void *a, const void *b) {
    double p = *(const double *)a, q = *(const double *)b;
    return (p > q) - (p < q);
}

// The ways take turns, so that what else the machine does falls on all of them.
static void measure(struct way *ways, size_t count, int calls) {
    for (int s = -5; s < SAMPLES; s++) {
        for (size_t w = 0; w < count; w++) {
            double start = now();
            for (int c = 0; c < calls; c++) ways[w].run();
            double took = (now() - start) / calls;
            if (s >= 0) ways[w].samples[s] = took;
        }
    }
    for (size_t w = 0; w < count; w++) {
        qsort(ways[w].samples, SAMPLES, sizeof(double), order);
        ways[w].median = ways[w].samples[SAMPLES / 2];
    }
}

void table(const char *title, struct way *ways, size_t count, int calls, double per, int checks) {
    measure(ways, count, calls);
    double whole = ways[0].median;
    double work = checks ? whole - ways[1].median : whole;
    for (size_t w = 0; w < count; w++) {
        double t = ways[w].median;
        printf("| %s | %s | %.3f |", title, ways[w].name, t / per / 1000);
        if (w == 0 || (checks && w == 1)) {
            printf(" | |\n");
        } else if (checks) {
            printf(" %.2f | %.2f |\n", whole / t, work / t);
        } else {
            printf(" %.2f | |\n", whole / t);
        }
    }
}

void differ(const char *name) {
    printf("DIFFERS: %s\n", name);
    differs = 1;
}

void agree(const char *name, void (*kit)(void), void (*other)(void), void *buffer, size_t len, int read) {
    uint8_t *wanted = malloc(len);
    memset(buffer, read ? 0 : 0x5A, len);
    kit();
    memcpy(wanted, buffer, len);
    memset(buffer, read ? 0 : 0xA5, len);
    other();
    if (memcmp(wanted, buffer, len) != 0) differ(name);
    free(wanted);
}

enum { STACK = 1 << 20, PAINT = 0xEE };

static void *call(void *run) {
    (*(void (**)(void))run)();
    return NULL;
}

// The bytes from the deepest one that was written to the stack's end, in a thread whose stack was painted.
static size_t written(void (*run)(void)) {
    pthread_attr_t attr;
    pthread_t thread;
    size_t low = 0;
    uint8_t *stack = mmap(NULL, STACK, PROT_READ | PROT_WRITE, MAP_PRIVATE | MAP_ANONYMOUS, -1, 0);
    if (stack == MAP_FAILED) abort();
    memset(stack, PAINT, STACK);
    pthread_attr_init(&attr);
    if (pthread_attr_setstack(&attr, stack, STACK) != 0 || pthread_create(&thread, &attr, call, &run) != 0) abort();
    pthread_join(thread, NULL);
    while (low < STACK && stack[low] == PAINT) low++;
    munmap(stack, STACK);
    return STACK - low;
}

static void nothing(void) {}

size_t depth(void (*run)(void)) {
    // the first call of a function in another library is looked up on the stack
    run();
    return written(run) - written(nothing);
}
