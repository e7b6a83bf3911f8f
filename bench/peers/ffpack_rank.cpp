// FFPACK: Rank on the full matrix, in single precision where p allows it, else in double precision. Past that it is not asked: its ranks
// over 64-bit integers are not always right.

#include <cstdint>
#include <fflas-ffpack/fflas-ffpack-config.h>
#include <fflas-ffpack/ffpack/ffpack.h>
#include <givaro/modular.h>

#include "matrix.h"

template <class Element>
static double rank_over(const struct matrix *a, long *rank) {
    typedef Givaro::Modular<Element> Field;
    Field field(a->modulus);
    Element *full = FFLAS::fflas_new(field, a->rows + 1, a->columns + 1);
    FFLAS::fzero(field, a->rows, a->columns, full, a->columns);
    for (long k = 0; k < a->count; k++)
        field.init(full[a->entries[k].row * a->columns + a->entries[k].column],
                   (int64_t)a->entries[k].value);
    double start = now();
    *rank = FFPACK::Rank(field, a->rows, a->columns, full, a->columns);
    double seconds = now() - start;
    FFLAS::fflas_delete(full);
    return seconds;
}

static double once(const struct matrix *a, long *rank) {
    if (a->modulus < 2048) return rank_over<float>(a, rank);
    if (a->modulus <= Givaro::Modular<double>::maxCardinality()) return rank_over<double>(a, rank);
    *rank = NOT_TAKEN;
    return 0;
}

int main(int argc, char **argv) { return run_peer(argc, argv, once); }
