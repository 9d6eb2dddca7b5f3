// Texts of the two representations of a polyhedron: inequalities and equations, or points, directions and lines.
#include <gmpxx.h>

#include <cstdio>
#include <fstream>
#include <sstream>
#include <string>
#include <vector>

using Vector = std::vector<mpq_class>;

// A row: its word, and its numbers, with the bound last where the word is `h` or `e`.
struct Row {
    char word;
    Vector v;
};

struct Representation {
    bool generators = false;
    size_t width = 0;
    std::vector<Row> rows;
};

// What a text says. It is taken to be without a fault.
static Representation read(const char *name) {
    std::ifstream file(name);
    Representation d;
    std::string kind, word;
    file >> kind >> d.width;
    d.generators = kind == "gens";
    for (std::string line; std::getline(file, line) && line != "end";) {
        std::istringstream words(line);
        if (!(words >> kind)) continue;
        Row row{kind[0], {}};
        while (words >> word) row.v.emplace_back(word);
        d.rows.push_back(row);
    }
    return d;
}

// The text of the other representation, whose lines need not be in their form, nor the others scaled.
class Printer {
public:
    explicit Printer(const Representation &given) { printf("%s %zu\n", given.generators ? "sides" : "gens", given.width); }
    void row(char word, const Vector &v) const {
        putchar(word);
        for (const mpq_class &x : v) gmp_printf(" %Qd", x.get_mpq_t());
        putchar('\n');
    }
    void end() const { puts("end"); }
};
