/* What the programs that time something share: a plan text from a file, the
   clock, and the median of several runs. */

#ifndef TIMED_H
#define TIMED_H

#include <stdint.h>
#include <stdio.h>
#include <stdlib.h>
#include <time.h>

enum { MOST_RUNS = 1000, MOST_TEXT = 65536 };

struct text {
    uint8_t bytes[MOST_TEXT];
    size_t length;
};

static inline int read_text(const char *path, struct text *text) {
    FILE *file = fopen(path, "rb");
    if (!file) return 0;
    text->length = fread(text->bytes, 1, MOST_TEXT, file);
    fclose(file);
    return 1;
}

static inline double now(void) {
    struct timespec t;
    clock_gettime(CLOCK_MONOTONIC, &t);
    return t.tv_sec + 1e-9 * t.tv_nsec;
}

static inline int compare_doubles(const void *a, const void *b) {
    double x = *(const double *)a, y = *(const double *)b;
    return (x > y) - (x < y);
}

/* The most runs that an argument asks for; 0 where it is no such number. */
static inline int runs_asked(const char *argument) {
    int most = atoi(argument);
    return most < 1 || most > MOST_RUNS ? 0 : most;
}

/* One run on what it is given; the seconds that count. */
typedef double timed_run(void *given);

/* At most `most` runs, fewer where they take longer than `limit` seconds in
   all, but at least one. */
static inline double median_seconds(timed_run *once, void *given, int most, double limit) {
    double seconds[MOST_RUNS], total = 0;
    int runs = 0;
    while (runs < most && (runs < 1 || total < limit)) {
        seconds[runs] = once(given);
        total += seconds[runs++];
    }
    qsort(seconds, runs, sizeof *seconds, compare_doubles);
    return seconds[runs / 2];
}

#endif
