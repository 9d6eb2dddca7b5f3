// The other representation of a polyhedron by double description of the Parma Polyhedra Library.
//
//   reps_ppl FILE
#include "reps.hh"

#include <ppl.hh>

namespace ppl = Parma_Polyhedra_Library;
using Polyhedron = ppl::C_Polyhedron;

static mpz_class common_denominator(const Vector &v) {
    mpz_class by = 1;
    for (const mpq_class &x : v) mpz_lcm(by.get_mpz_t(), by.get_mpz_t(), x.get_den().get_mpz_t());
    return by;
}

// The sum of the variables with these numbers, times `by`.
static ppl::Linear_Expression multiple(const Vector &v, size_t width, const mpz_class &by) {
    ppl::Linear_Expression sum;
    if (width > 0) sum += 0 * ppl::Variable(width - 1);
    for (size_t k = 0; k < width; k++) sum += mpz_class(by * v[k]) * ppl::Variable(k);
    return sum;
}

static Polyhedron of_sides(const Representation &d) {
    Polyhedron set(d.width, ppl::UNIVERSE);
    for (const Row &row : d.rows) {
        mpz_class by = common_denominator(row.v);
        ppl::Linear_Expression side = multiple(row.v, d.width, by) - mpz_class(by * row.v[d.width]);
        set.add_constraint(row.word == 'e' ? side == 0 : side >= 0);
    }
    return set;
}

static Polyhedron of_generators(const Representation &d) {
    ppl::Generator_System all;
    bool is_empty = true;
    for (const Row &row : d.rows) {
        mpz_class by = common_denominator(row.v);
        ppl::Linear_Expression sum = multiple(row.v, d.width, by);
        if (row.word == '1') is_empty = false;
        if (row.word == '1')
            all.insert(ppl::Generator::point(sum, by));
        else if (!sum.all_homogeneous_terms_are_zero())
            all.insert(row.word == 'l' ? ppl::Generator::line(sum) : ppl::Generator::ray(sum));
    }
    Polyhedron set(d.width, ppl::EMPTY);
    if (!is_empty) set.add_generators(all);
    return set;
}

static void print_generators(const Representation &d, const Polyhedron &set) {
    Printer out(d);
    for (const ppl::Generator &g : set.minimized_generators()) {
        mpz_class by = g.is_point() ? mpz_class(g.divisor()) : mpz_class(1);
        Vector v;
        for (size_t k = 0; k < d.width; k++) {
            v.emplace_back(mpz_class(g.coefficient(ppl::Variable(k))), by);
            v.back().canonicalize();
        }
        out.row(g.is_point() ? '1' : g.is_ray() ? '0' : 'l', v);
    }
    out.end();
}

static void print_sides(const Representation &d, const Polyhedron &set) {
    Printer out(d);
    if (set.is_empty()) {
        Vector nothing(d.width + 1);
        nothing[d.width] = 1;
        out.row('h', nothing);
    } else {
        for (const ppl::Constraint &c : set.minimized_constraints()) {
            Vector v;
            for (size_t k = 0; k < d.width; k++) v.emplace_back(mpz_class(c.coefficient(ppl::Variable(k))));
            v.emplace_back(-mpz_class(c.inhomogeneous_term()));
            out.row(c.is_equality() ? 'e' : 'h', v);
        }
    }
    out.end();
}

int main(int count, char **words) {
    if (count < 2) return 2;
    Representation d = read(words[1]);
    if (d.generators)
        print_sides(d, of_generators(d));
    else
        print_generators(d, of_sides(d));
    return 0;
}
