/* PARI: Flm_rank on the full matrix, a vector of columns. */

#include <pari/pari.h>

#include "matrix.h"

static double once(const struct matrix *a, long *rank) {
    pari_sp before = avma;
    GEN full = zero_Flm_copy(a->rows, a->columns);
    for (long k = 0; k < a->count; k++)
        coeff(full, a->entries[k].row + 1, a->entries[k].column + 1) = a->entries[k].value;
    double start = now();
    *rank = Flm_rank(full, a->modulus);
    double seconds = now() - start;
    avma = before;
    return seconds;
}

int main(int argc, char **argv) {
    pari_init((size_t)1 << 26, 0);
    paristack_setsize((size_t)1 << 28, (size_t)1 << 33);
    return run_peer(argc, argv, once);
}
