// LinBox as a program: the modulus and a matrix in SMS form on standard input, read by LinBox's own reader; prints the rank by sparse elimination.

#include <iostream>
#include <linbox/linbox-config.h>
#include <givaro/modular.h>
#include <linbox/matrix/sparse-matrix.h>
#include <linbox/solutions/rank.h>
#include <linbox/util/matrix-stream.h>

template <class Field>
static int print_rank(unsigned long p) {
    Field field(p);
    LinBox::MatrixStream<Field> stream(field, std::cin);
    LinBox::SparseMatrix<Field, LinBox::SparseMatrixFormat::SparseSeq> matrix(stream);
    size_t rank = 0;
    LinBox::rankInPlace(rank, matrix, LinBox::Method::SparseElimination());
    std::cout << rank << std::endl;
    return 0;
}

int main() {
    typedef Givaro::Modular<double> Doubles;
    std::ios::sync_with_stdio(false);
    unsigned long p;
    if (!(std::cin >> p)) return 2;
    return p <= Doubles::maxCardinality() ? print_rank<Doubles>(p) : print_rank<Givaro::Modular<int64_t>>(p);
}
