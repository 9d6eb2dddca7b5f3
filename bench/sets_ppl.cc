// Projections and sets made of feasible sets, by double description of the Parma Polyhedra Library alone, beside the text that
// the program prints of them: says whether both are one set, and the milliseconds of the library.
//
//   sets_ppl project FILE K <TEXT    sets_ppl map FILE <TEXT    sets_ppl meet|sum|join FILE FILE2 <TEXT
#include "images.hh"

#include <ctime>
#include <iostream>

using Polyhedron = ppl::C_Polyhedron;

static Polyhedron feasible(const Problem &p) {
    Polyhedron set(p.columns, ppl::UNIVERSE);
    for (const Inequality &side : p.sides) set.add_constraint(constraint(side));
    return set;
}

static ppl::Linear_Expression entries(const ppl::Generator &g, size_t width, const mpz_class &by) {
    ppl::Linear_Expression sum;
    for (size_t k = 0; k < width; k++) sum += mpz_class(by * mpz_class(g.coefficient(ppl::Variable(k)))) * ppl::Variable(k);
    return sum;
}

// The sums of a vector of each.
static Polyhedron sum_of(const Polyhedron &a, const Polyhedron &b) {
    size_t width = a.space_dimension();
    if (a.is_empty() || b.is_empty()) return Polyhedron(width, ppl::EMPTY);
    ppl::Generator_System all;
    for (const ppl::Generator &g : a.minimized_generators()) {
        if (!g.is_point()) {
            all.insert(g);
            continue;
        }
        for (const ppl::Generator &h : b.minimized_generators()) {
            if (!h.is_point()) continue;
            mpz_class d(g.divisor()), e(h.divisor());
            all.insert(ppl::Generator::point(entries(g, width, e) + entries(h, width, d), mpz_class(d * e)));
        }
    }
    for (const ppl::Generator &h : b.minimized_generators())
        if (!h.is_point()) all.insert(h);
    Polyhedron sum(width, ppl::EMPTY);
    sum.add_generators(all);
    return sum;
}

// The values of the objectives, as the file gives them.
static Polyhedron image_of(const Problem &p) {
    Polyhedron set = feasible(p);
    size_t width = p.objectives.size();
    set.add_space_dimensions_and_embed(width);
    for (size_t i = 0; i < width; i++) {
        mpz_class by = common_denominator(p.objectives[i]);
        set.affine_image(ppl::Variable(p.columns + i), multiple(p.objectives[i], p.maximises ? mpz_class(-by) : by), by);
    }
    ppl::Variables_Set columns(ppl::Variable(0), ppl::Variable(p.columns - 1));
    set.remove_space_dimensions(columns);
    return set;
}

// The set whose lines, points and directions a text lists.
static Polyhedron listed(size_t width) {
    ppl::Generator_System all;
    for (std::string line; std::getline(std::cin, line) && line != "witnesses";) {
        std::istringstream words(line);
        std::string kind, word;
        words >> kind;
        if (kind != "l" && kind != "1" && kind != "0") continue;
        Vector v;
        while (words >> word) v.emplace_back(word);
        mpz_class by = common_denominator(v);
        ppl::Linear_Expression sum = multiple(v, by);
        all.insert(kind == "1" ? ppl::Generator::point(sum, by) : kind == "0" ? ppl::Generator::ray(sum) : ppl::Generator::line(sum));
    }
    Polyhedron set(width, ppl::EMPTY);
    if (all.begin() != all.end()) set.add_generators(all);
    return set;
}

int main(int count, char **words) {
    if (count < 3) return 2;
    std::string command = words[1];
    Problem first = read(words[2]);
    std::clock_t start = std::clock();
    Polyhedron set = feasible(first);
    if (command == "project") {
        set.remove_higher_space_dimensions(std::stoul(words[3]));
    } else if (command == "map") {
        set = image_of(first);
    } else {
        Polyhedron second = feasible(read(words[3]));
        if (command == "meet") set.intersection_assign(second);
        if (command == "join") set.poly_hull_assign(second);
        if (command == "sum") set = sum_of(set, second);
    }
    set.minimized_generators();
    set.minimized_constraints();
    double milliseconds = 1000.0 * double(std::clock() - start) / CLOCKS_PER_SEC;
    bool same = set == listed(set.space_dimension());
    printf("%s %.1f\n", same ? "same" : "differs", milliseconds);
    return same ? 0 : 1;
}
