// The projection of a feasible set on its first columns by cddlib (block elimination, and double description of what it gives):
// the numbers of its points and of its directions, and the milliseconds of the library.
//
//   sets_cdd FILE K
#include "images.hh"

#include <ctime>

#define GMPRATIONAL
extern "C" {
#include <cddlib/setoper.h>
#include <cddlib/cdd.h>
}

static dd_MatrixPtr sides_of(const Problem &p) {
    dd_MatrixPtr sides = dd_CreateMatrix(static_cast<dd_rowrange>(p.sides.size()), static_cast<dd_colrange>(p.columns + 1));
    sides->representation = dd_Inequality;
    sides->numbtype = dd_Rational;
    for (size_t i = 0; i < p.sides.size(); i++) {
        mpq_class constant = -p.sides[i].bound;
        dd_set(sides->matrix[i][0], constant.get_mpq_t());
        for (size_t j = 0; j < p.columns; j++) {
            mpq_class entry = p.sides[i].normal[j];
            dd_set(sides->matrix[i][j + 1], entry.get_mpq_t());
        }
    }
    return sides;
}

int main(int count, char **words) {
    if (count < 3) return 2;
    Problem p = read(words[1]);
    size_t kept = std::stoul(words[2]);
    dd_set_global_constants();
    dd_ErrorType fault = dd_NoError;
    dd_MatrixPtr sides = sides_of(p);
    std::clock_t start = std::clock();
    dd_colset gone;
    set_initialize(&gone, static_cast<long>(p.columns + 1));
    for (size_t j = kept; j < p.columns; j++) set_addelem(gone, static_cast<long>(j + 2));
    dd_MatrixPtr rows = dd_BlockElimination(sides, gone, &fault);
    if (fault != dd_NoError) return 1;
    dd_PolyhedraPtr set = dd_DDMatrix2Poly(rows, &fault);
    if (fault != dd_NoError) return 1;
    dd_MatrixPtr generators = dd_CopyGenerators(set);
    double milliseconds = 1000.0 * double(std::clock() - start) / CLOCKS_PER_SEC;
    long points = 0;
    for (dd_rowrange i = 0; i < generators->rowsize; i++) points += mpq_sgn(generators->matrix[i][0]) > 0;
    printf("points %ld directions %ld %.1f\n", points, static_cast<long>(generators->rowsize) - points, milliseconds);
    return 0;
}
