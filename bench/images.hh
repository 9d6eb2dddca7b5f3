// Benson's outer approximation of the upper image of a vlp file whose ordering cone is the orthant, exact, by the double
// description of the Parma Polyhedra Library. The driver that takes this in brings the linear programs.
#include <ppl.hh>

#include <algorithm>
#include <cstdio>
#include <fstream>
#include <set>
#include <sstream>
#include <string>
#include <vector>

namespace ppl = Parma_Polyhedra_Library;
using Vector = std::vector<mpq_class>;

// The inequality `normal . x >= bound`.
struct Inequality {
    Vector normal;
    mpq_class bound;
};

// The least `objectives x` where all sides hold.
struct Problem {
    bool maximises = false;
    size_t columns = 0;
    std::vector<Vector> objectives;
    std::vector<Inequality> sides;
};

// Whether a point or a direction is in the image, or is not, as a cut shows; or that no point is, or all are, or a line.
enum class Reply { in, out, infeasible, whole, line };

// A decimal number, with a point and an exponent or without.
static mpq_class number(std::string text) {
    size_t mark = text.find_first_of("eE");
    long power = mark == std::string::npos ? 0 : std::stol(text.substr(mark + 1));
    text = text.substr(text[0] == '+' ? 1 : 0, mark);
    size_t point = text.find('.');
    if (point != std::string::npos) power -= static_cast<long>(text.size() - point - 1), text.erase(point, 1);
    mpz_class ten;
    mpz_ui_pow_ui(ten.get_mpz_t(), 10, static_cast<unsigned long>(std::labs(power)));
    mpz_class digits(text, 10);
    mpq_class value = power < 0 ? mpq_class(digits, ten) : mpq_class(digits * ten);
    value.canonicalize();
    return value;
}

// The sides of a row or a column with these bounds: a lower one first.
static void add_sides(const Vector &normal, char type, const std::vector<mpq_class> &bounds, std::vector<Inequality> &sides) {
    Vector opposite;
    for (const mpq_class &x : normal) opposite.push_back(-x);
    if (type == 'l' || type == 'd' || type == 's') sides.push_back({normal, bounds.front()});
    if (type == 'u' || type == 'd' || type == 's') sides.push_back({opposite, -bounds.back()});
}

// What the file says. It is taken to be without a fault, and to have no ordering cone of its own.
static Problem read(const char *name) {
    std::ifstream file(name);
    Problem p;
    std::vector<Vector> rows;
    for (std::string line; std::getline(file, line);) {
        std::istringstream words(line);
        std::string kind, word;
        size_t i = 0, j = 0;
        words >> kind;
        if (kind == "e") break;
        if (kind == "p") {
            size_t row_count, objective_count;
            words >> word >> word >> row_count >> p.columns >> i >> objective_count;
            p.maximises = word == "max";
            rows.assign(row_count, Vector(p.columns));
            p.objectives.assign(objective_count, Vector(p.columns));
        } else if (kind == "a" || kind == "o") {
            words >> i >> j >> word;
            (kind == "a" ? rows : p.objectives)[i - 1][j - 1] = number(word);
        } else if (kind == "i" || kind == "j") {
            std::string type;
            std::vector<mpq_class> bounds;
            words >> i >> type;
            while (words >> word) bounds.push_back(number(word));
            Vector unit(p.columns);
            if (kind == "j") unit[i - 1] = 1;
            add_sides(kind == "i" ? rows[i - 1] : unit, type[0], bounds, p.sides);
        }
    }
    if (p.maximises)
        for (Vector &row : p.objectives)
            for (mpq_class &x : row) x = -x;
    return p;
}

static mpq_class product(const Vector &v, const Vector &w) {
    mpq_class sum;
    for (size_t k = 0; k < v.size(); k++) sum += v[k] * w[k];
    return sum;
}

// The least whole multiple of a fraction that makes all entries whole.
static mpz_class common_denominator(const Vector &v) {
    mpz_class common = 1;
    for (const mpq_class &x : v) common = lcm(common, x.get_den());
    return common;
}

// `by` times the sum of the entries times the variables.
static ppl::Linear_Expression multiple(const Vector &v, const mpz_class &by) {
    ppl::Linear_Expression sum;
    for (size_t k = 0; k < v.size(); k++)
        if (v[k] != 0) sum += mpz_class(v[k] * by) * ppl::Variable(k);
    return sum;
}

static ppl::Constraint constraint(const Inequality &cut) {
    Vector all = cut.normal;
    all.push_back(cut.bound);
    mpz_class by = common_denominator(all);
    return multiple(cut.normal, by) >= mpz_class(cut.bound * by);
}

// A point as it is, or a direction (or one of a line's two) divided by the magnitude of its first entry that is not 0.
static Vector vector_of(const ppl::Generator &g, size_t width, int sign) {
    mpz_class by = g.is_point() ? mpz_class(g.divisor()) : mpz_class(0);
    for (size_t k = 0; by == 0; k++) by = abs(mpz_class(g.coefficient(ppl::Variable(k))));
    Vector v;
    for (size_t k = 0; k < width; k++) {
        v.emplace_back(sign * mpz_class(g.coefficient(ppl::Variable(k))), by);
        v.back().canonicalize();
    }
    return v;
}

// One of the sections of an answer: vectors in rising order.
static void print(const char *title, const char *first, std::vector<Vector> list) {
    std::sort(list.begin(), list.end());
    printf("%s %zu\n", title, list.size());
    for (const Vector &v : list) {
        fputs(first, stdout);
        for (const mpq_class &x : v) printf(" %s", x.get_str().c_str());
        putchar('\n');
    }
}

// The answer, in the coordinates of the file, where `outer` is the image. Facets are scaled to `w . c = 1`, c all ones.
static void print_image(const Problem &p, const ppl::C_Polyhedron &outer) {
    size_t width = p.objectives.size();
    int sign = p.maximises ? -1 : 1;
    std::vector<Vector> points, directions, facets;
    for (const ppl::Generator &g : outer.minimized_generators())
        (g.is_point() ? points : directions).push_back(vector_of(g, width, 1));
    for (std::vector<Vector> *list : {&points, &directions})
        for (Vector &v : *list)
            for (mpq_class &x : v) x *= sign;
    for (const ppl::Constraint &row : outer.minimized_constraints()) {
        mpz_class by = 0;
        for (size_t k = 0; k < width; k++) by += row.coefficient(ppl::Variable(k));
        Vector facet;
        for (size_t k = 0; k < width; k++) facet.emplace_back(mpz_class(row.coefficient(ppl::Variable(k))), by);
        facet.emplace_back(-sign * mpz_class(row.inhomogeneous_term()), by);
        for (mpq_class &x : facet) x.canonicalize();
        facets.push_back(facet);
    }
    puts("answer solved");
    print("points", "1", points);
    print("directions", "0", directions);
    print("facets", "f", facets);
}

// The outer polyhedron, the points and directions of it that are known to be in the image, and the cuts that are still to be
// added. Those of one list of generators are asked for one by one, but for those that such a cut cuts off already.
template <typename Programs> class Outer {
    Programs &programs;
    size_t width, count = 0;
    ppl::C_Polyhedron outer;
    std::set<Vector> points, directions;
    std::vector<Inequality> cuts;

    Reply ask(const Vector &v, bool is_point) {
        std::set<Vector> &known = is_point ? points : directions;
        if (known.count(v)) return Reply::in;
        for (const Inequality &cut : cuts)
            if (product(cut.normal, v) < (is_point ? cut.bound : mpq_class(0))) return Reply::out;
        Inequality cut;
        Reply reply = is_point ? programs.at_point(v, cut) : programs.at_direction(v, cut);
        count++;
        if (reply == Reply::in) known.insert(v);
        if (reply == Reply::out) cuts.push_back(cut);
        return reply;
    }

    Reply ask_all() {
        for (const ppl::Generator &g : outer.minimized_generators()) {
            Reply reply = ask(vector_of(g, width, 1), g.is_point());
            if (g.is_line()) {
                Reply back = ask(vector_of(g, width, -1), false);
                if (reply == Reply::in) reply = back == Reply::in ? Reply::line : back;
            }
            if (reply != Reply::in && reply != Reply::out) return reply;
        }
        return cuts.empty() ? Reply::in : Reply::out;
    }

public:
    Outer(const Problem &p, Programs &these) : programs(these), width(p.objectives.size()), outer(width) {}

    void solve(const Problem &p) {
        Reply reply;
        while ((reply = ask_all()) == Reply::out) {
            for (const Inequality &cut : cuts) outer.add_constraint(constraint(cut));
            cuts.clear();
        }
        if (reply == Reply::in) print_image(p, outer);
        if (reply == Reply::infeasible) puts("answer infeasible");
        if (reply == Reply::whole) puts("answer whole");
        if (reply == Reply::line) puts("answer novertex");
        printf("programs %zu\n", count);
    }
};
