// The other representation of a polyhedron by double description of cddlib over fractions of GMP.
//
//   reps_cdd FILE
#include "reps.hh"

#define GMPRATIONAL
extern "C" {
#include <cddlib/setoper.h>
#include <cddlib/cdd.h>
}

static dd_MatrixPtr matrix_of(const Representation &d) {
    dd_MatrixPtr matrix = dd_CreateMatrix(static_cast<dd_rowrange>(d.rows.size()), static_cast<dd_colrange>(d.width + 1));
    matrix->representation = d.generators ? dd_Generator : dd_Inequality;
    matrix->numbtype = dd_Rational;
    for (size_t i = 0; i < d.rows.size(); i++) {
        const Row &row = d.rows[i];
        mpq_class first = d.generators ? mpq_class(row.word == '1' ? 1 : 0) : mpq_class(-row.v[d.width]);
        dd_set(matrix->matrix[i][0], first.get_mpq_t());
        for (size_t k = 0; k < d.width; k++) {
            mpq_class entry = row.v[k];
            dd_set(matrix->matrix[i][k + 1], entry.get_mpq_t());
        }
        if (row.word == 'e' || row.word == 'l') set_addelem(matrix->linset, static_cast<long>(i + 1));
    }
    return matrix;
}

// Whether all bounds are 0: then the library leaves the point 0 out.
static bool is_cone(const Representation &d) {
    for (const Row &row : d.rows)
        if (d.generators || sgn(row.v[d.width]) != 0) return false;
    return !d.generators;
}

static void print_other(const Representation &d, dd_MatrixPtr found) {
    Printer out(d);
    if (is_cone(d)) out.row('1', Vector(d.width));
    for (dd_rowrange i = 0; i < found->rowsize; i++) {
        bool both_ways = set_member(i + 1, found->linset);
        mpq_class first(found->matrix[i][0]);
        Vector v;
        for (size_t k = 0; k < d.width; k++) v.emplace_back(found->matrix[i][k + 1]);
        if (d.generators) v.push_back(-first);
        bool is_point = !d.generators && sgn(first) > 0;
        for (mpq_class &x : v)
            if (is_point) x /= first;
        out.row(d.generators ? (both_ways ? 'e' : 'h') : is_point ? '1' : both_ways ? 'l' : '0', v);
    }
    out.end();
}

int main(int count, char **words) {
    if (count < 2) return 2;
    Representation d = read(words[1]);
    dd_set_global_constants();
    dd_ErrorType fault = dd_NoError;
    dd_PolyhedraPtr set = dd_DDMatrix2Poly(matrix_of(d), &fault);
    if (fault != dd_NoError) return 1;
    print_other(d, d.generators ? dd_CopyInequalities(set) : dd_CopyGenerators(set));
    return 0;
}
