/* FLINT: nmod_mat_rank on the full matrix. */

#include <flint/nmod_mat.h>

#include "matrix.h"

static double once(const struct matrix *a, long *rank) {
    nmod_mat_t full;
    nmod_mat_init(full, a->rows, a->columns, a->modulus);
    for (long k = 0; k < a->count; k++)
        nmod_mat_entry(full, a->entries[k].row, a->entries[k].column) = a->entries[k].value;
    double start = now();
    *rank = nmod_mat_rank(full);
    double seconds = now() - start;
    nmod_mat_clear(full);
    return seconds;
}

int main(int argc, char **argv) { return run_peer(argc, argv, once); }
