// The rows of key making, signing and verification.
#ifndef SCHEME_ROWS_H
#define SCHEME_ROWS_H

// Reads the sample's message and signature from two files; not 0 where they cannot be read or have a wrong length.
int read_sample(const char *message, const char *signature);

// Compares what the kit and the baselines make of the sample.
void compare_scheme(void);

// Measures, and prints rows and the use of the stack.
void scheme_rows(void);

#endif
