/* What bench.c and bursts.c share. */
#ifndef BENCH_H
#define BENCH_H

/* Tables of a kind: with 8 records in order, and with as many as there may be. */
enum { EIGHT_IN_ORDER = 1, MOST_IN_ORDER = 2 };

void fail(const char *what, const char *kind);

/* A line of `bench time`: a figure for each of n subjects. */
void print_times(const char *where, const double ns[], const char *const called[], unsigned int n);

/* All bursts; `count`: instructions, else times. */
void measure_bursts(int count);

/* The instructions of calling a burst that does nothing. */
void measure_no_burst(const char *label);

#endif
