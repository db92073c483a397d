// How the rows of the table are measured and compared.
#ifndef MEASURE_H
#define MEASURE_H

#include <stddef.h>
#include <stdint.h>

enum { SAMPLES = 301 };

// One implementation of what a table compares, and its samples in nanoseconds for one call.
struct way {
    const char *name;
    void (*run)(void);
    double samples[SAMPLES], median;
};

#define WAY(name, run) {name, run, {0}, 0}
#define COUNT(ways) (sizeof(ways) / sizeof((ways)[0]))
#ifdef WITH_CLANG
#define CLANG(name, run) , WAY(name, run)
#else
#define CLANG(name, run)
#endif

// Prints a row for each way. A sample is so many calls, each of `per` things. The first way is the kit's; where `checks`, the second is
// its checks alone, and a second ratio leaves them out.
void table(const char *title, struct way *ways, size_t count, int calls, double per, int checks);

// Says so where a way leaves something else in a buffer than the kit's does. A buffer that is read begins as zeros.
void agree(const char *name, void (*kit)(void), void (*other)(void), void *buffer, size_t len, int read);

// Notes a difference.
void differ(const char *name);
extern int differs;

// How deep the stack is written by a call, in bytes.
size_t depth(void (*run)(void));

#endif
