/* What the peers share: reading matrices and timing.

   Standard input holds any number of matrices: a line `p n m e`, then e lines
   `i j v`, rows and columns counted from 0 and v from 1 to p - 1. For each a
   peer prints `rank seconds`, the median of its runs, or `- 0` where it does not
   take the modulus. The argument is the most runs a matrix; there are fewer where
   they take longer than a second in all, but at least one. Only the rank itself
   is timed. */

#ifndef MATRIX_H
#define MATRIX_H

#include "../timed.h"

struct entry {
    long row, column;
    unsigned long value;
};

struct matrix {
    unsigned long modulus;
    long rows, columns, count;
    struct entry *entries;
};

static inline int read_matrix(struct matrix *a) {
    if (scanf("%lu %ld %ld %ld", &a->modulus, &a->rows, &a->columns, &a->count) != 4) return 0;
    a->entries = (struct entry *)malloc((a->count + 1) * sizeof *a->entries);
    if (!a->entries) exit(2);
    for (long k = 0; k < a->count; k++) {
        struct entry *e = a->entries + k;
        if (scanf("%ld %ld %lu", &e->row, &e->column, &e->value) != 3) exit(2);
    }
    return 1;
}

enum { NOT_TAKEN = -1 }; /* in the place of a rank: the modulus is past the peer's range */

/* `once` leaves the rank and returns the seconds that it took. */
typedef double rank_once(const struct matrix *, long *rank);

struct peer_run {
    rank_once *once;
    const struct matrix *matrix;
    long rank;
};

static inline double run_once(void *given) {
    struct peer_run *run = (struct peer_run *)given;
    return run->once(run->matrix, &run->rank);
}

static inline int run_peer(int argc, char **argv, rank_once *once) {
    int most = argc > 1 ? runs_asked(argv[1]) : 1;
    struct matrix a;
    if (most == 0) return 2;
    while (read_matrix(&a)) {
        struct peer_run run = {once, &a, NOT_TAKEN};
        double seconds = median_seconds(run_once, &run, most, 1.0);
        if (run.rank == NOT_TAKEN)
            printf("- 0\n");
        else
            printf("%ld %.9f\n", run.rank, seconds);
        fflush(stdout);
        free(a.entries);
    }
    return 0;
}

#endif
