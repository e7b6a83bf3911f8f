// LinBox: rank by sparse elimination, with its own reordering; in double precision where p allows it, else in 64-bit integers.

#include <linbox/linbox-config.h>
#include <givaro/modular.h>
#include <linbox/matrix/sparse-matrix.h>
#include <linbox/solutions/rank.h>

#include "matrix.h"

template <class Field>
static double rank_over(const struct matrix *a, long *rank) {
    Field field(a->modulus);
    LinBox::SparseMatrix<Field, LinBox::SparseMatrixFormat::SparseSeq> sparse(
        field, a->rows, a->columns);
    for (long k = 0; k < a->count; k++) {
        typename Field::Element value;
        field.init(value, (int64_t)a->entries[k].value);
        sparse.setEntry(a->entries[k].row, a->entries[k].column, value);
    }
    size_t found = 0;
    double start = now();
    LinBox::rankInPlace(found, sparse, LinBox::Method::SparseElimination());
    double seconds = now() - start;
    *rank = found;
    return seconds;
}

static double once(const struct matrix *a, long *rank) {
    typedef Givaro::Modular<double> Doubles;
    *rank = 0;
    if (a->rows == 0 || a->columns == 0) return 0;  // LinBox ends by a signal here
    return a->modulus <= Doubles::maxCardinality() ? rank_over<Doubles>(a, rank)
                                                   : rank_over<Givaro::Modular<int64_t>>(a, rank);
}

int main(int argc, char **argv) { return run_peer(argc, argv, once); }
