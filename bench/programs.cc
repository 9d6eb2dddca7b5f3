// Times linear programs in whole numbers beside QSopt_ex and the Parma Polyhedra Library, on the same programs in one run, and
// checks that all find the same value.
#include <ppl.hh>

#include <algorithm>
#include <cstdint>
#include <cstdio>
#include <cstdlib>
#include <ctime>
#include <random>
#include <string>
#include <vector>

extern "C" {
#include <qsopt_ex/QSopt_ex.h>

struct value {
    int64_t num, den;
};
uint32_t bench_program(uint32_t rows, uint32_t cols, const int64_t *a, size_t a_length, const int64_t *b, size_t b_length,
                       const int64_t *cost, size_t cost_length, value *value);
}

namespace ppl = Parma_Polyhedra_Library;

// The greatest `cost . z` with `a z = b` and `z >= 0`.
struct Program {
    size_t rows, cols;
    std::vector<int64_t> a, b, cost;
    int64_t &at(size_t i, size_t j) { return a[i * cols + j]; }
    int64_t at(size_t i, size_t j) const { return a[i * cols + j]; }
};

static Program empty(size_t rows, size_t cols) {
    return {rows, cols, std::vector<int64_t>(rows * cols), std::vector<int64_t>(rows), std::vector<int64_t>(cols)};
}

using Source = std::mt19937;

static int64_t among(Source &source, int64_t low, int64_t high) {
    return low + static_cast<int64_t>(source() % static_cast<uint32_t>(high - low + 1));
}

// Half as many equations as unknowns, each with a slack: positive entries to 9 or 99, a positive cost.
static Program dense(size_t unknowns, int64_t most, Source &source) {
    size_t rows = unknowns / 2;
    Program p = empty(rows, unknowns + rows);
    for (size_t i = 0; i < rows; i++) {
        for (size_t j = 0; j < unknowns; j++) p.at(i, j) = among(source, 1, most);
        p.at(i, unknowns + i) = 1;
        p.b[i] = among(source, most * 10, most * 100);
    }
    for (size_t j = 0; j < unknowns; j++) p.cost[j] = among(source, 1, most);
    return p;
}

// So many sources and as many sinks, of equal supply in all: one equation each, at the least cost.
static Program transport(size_t size, Source &source) {
    Program p = empty(2 * size, size * size);
    for (size_t i = 0; i < size; i++) {
        for (size_t j = 0; j < size; j++) {
            p.at(i, i * size + j) = p.at(size + j, i * size + j) = 1;
            p.cost[i * size + j] = -among(source, 1, 99);
        }
        p.b[i] = 10;
        p.b[size + i] = 10;
    }
    for (size_t k = 0; k < 4 * size; k++) {
        int64_t part = among(source, 0, 2);
        size_t i = source() % size, j = source() % size;
        if (p.b[i] > part && i != j) p.b[i] -= part, p.b[j] += part;
    }
    return p;
}

// Each of so many elements is in at least one of the sets, of which it is in 4: the least cost.
static Program cover(size_t elements, Source &source) {
    size_t sets = elements;
    Program p = empty(elements, sets + elements);
    for (size_t i = 0; i < elements; i++) {
        for (int k = 0; k < 4; k++) p.at(i, source() % sets) = 1;
        p.at(i, sets + i) = -1;
        p.b[i] = 1;
    }
    for (size_t j = 0; j < sets; j++) p.cost[j] = -among(source, 1, 9);
    return p;
}

// An assignment with costs from 1 to 3: at each basis most of the solution is 0, and many ratios are equal.
static Program ties(size_t size, Source &source) {
    Program p = empty(2 * size, size * size);
    for (size_t i = 0; i < size; i++) {
        for (size_t j = 0; j < size; j++) {
            p.at(i, i * size + j) = p.at(size + j, i * size + j) = 1;
            p.cost[i * size + j] = -among(source, 1, 3);
        }
        p.b[i] = p.b[size + i] = 1;
    }
    return p;
}

// Milliseconds of processor time, which other work on the machine does not lengthen much.
static double now() {
    timespec t;
    clock_gettime(CLOCK_PROCESS_CPUTIME_ID, &t);
    return static_cast<double>(t.tv_sec) * 1e3 + static_cast<double>(t.tv_nsec) / 1e6;
}

struct Answer {
    double time = 1e30;
    uint32_t end = 0;
    mpq_class value;
    size_t bits = 0;
};

static void run_ours(const Program &p, Answer &out) {
    value found = {0, 0};
    double start = now();
    out.end = bench_program(static_cast<uint32_t>(p.rows), static_cast<uint32_t>(p.cols), p.a.data(), p.a.size(), p.b.data(),
                            p.b.size(), p.cost.data(), p.cost.size(), &found);
    out.time = std::min(out.time, now() - start);
    if (found.den != 0) out.value = mpq_class(mpz_class(static_cast<long>(found.num)), mpz_class(static_cast<long>(found.den)));
    out.bits = found.den != 0;
}

// A list of fractions as QSopt_ex takes it.
class Numbers {
    std::vector<mpq_class> list;

public:
    explicit Numbers(size_t count) : list(std::max<size_t>(count, 1)) {}
    template <typename Of> Numbers(size_t count, Of entry) : Numbers(count) {
        for (size_t k = 0; k < count; k++) list[k] = static_cast<long>(entry(k));
    }
    mpq_t *raw() {
        static_assert(sizeof(mpq_class) == sizeof(mpq_t));
        return reinterpret_cast<mpq_t *>(list.data());
    }
    const mpq_class &operator[](size_t k) const { return list[k]; }
};

// The program by columns, which keep only their entries that are not 0.
static mpq_QSprob load(const Program &p) {
    std::vector<int> counts(p.cols), begins(p.cols), places;
    std::vector<int64_t> entries;
    for (size_t j = 0; j < p.cols; j++) {
        begins[j] = static_cast<int>(places.size());
        for (size_t i = 0; i < p.rows; i++) {
            if (p.at(i, j) == 0) continue;
            places.push_back(static_cast<int>(i));
            entries.push_back(p.at(i, j));
            counts[j]++;
        }
    }
    std::vector<char> sense(p.rows, 'E');
    Numbers values(entries.size(), [&](size_t k) { return entries[k]; });
    Numbers cost(p.cols, [&](size_t k) { return p.cost[k]; });
    Numbers right(p.rows, [&](size_t k) { return p.b[k]; });
    Numbers lower(p.cols), upper(p.cols);
    for (size_t k = 0; k < p.cols; k++) mpq_set(upper.raw()[k], mpq_ILL_MAXDOUBLE);
    return mpq_QSload_prob("p", static_cast<int>(p.cols), static_cast<int>(p.rows), counts.data(), begins.data(), places.data(),
                           values.raw(), QS_MAX, cost.raw(), right.raw(), sense.data(), lower.raw(), upper.raw(), nullptr, nullptr);
}

static void run_qsopt(const Program &p, Answer &out) {
    Numbers x(p.cols + p.rows), y(p.rows);
    double start = now();
    mpq_QSprob problem = load(p);
    int status = 0;
    int failed = QSexact_solver(problem, x.raw(), y.raw(), nullptr, DUAL_SIMPLEX, &status);
    out.time = std::min(out.time, now() - start);
    mpq_QSfree_prob(problem);
    out.end = failed ? 0 : static_cast<uint32_t>(status);
    if (out.end != QS_LP_OPTIMAL) return;
    out.value = 0;
    out.bits = 0;
    for (size_t j = 0; j < p.cols; j++) out.value += x[j] * static_cast<long>(p.cost[j]);
    auto longest = [&](const Numbers &list, size_t count) {
        for (size_t k = 0; k < count; k++)
            out.bits = std::max({out.bits, mpz_sizeinbase(list[k].get_num_mpz_t(), 2), mpz_sizeinbase(list[k].get_den_mpz_t(), 2)});
    };
    longest(x, p.cols);
    longest(y, p.rows);
}

static void run_ppl(const Program &p, Answer &out) {
    double start = now();
    ppl::MIP_Problem problem(p.cols);
    for (size_t j = 0; j < p.cols; j++) problem.add_constraint(ppl::Variable(j) >= 0);
    for (size_t i = 0; i < p.rows; i++) {
        ppl::Linear_Expression sum;
        for (size_t j = 0; j < p.cols; j++)
            if (p.at(i, j) != 0) sum += static_cast<long>(p.at(i, j)) * ppl::Variable(j);
        problem.add_constraint(sum == static_cast<long>(p.b[i]));
    }
    ppl::Linear_Expression cost;
    for (size_t j = 0; j < p.cols; j++) cost += static_cast<long>(p.cost[j]) * ppl::Variable(j);
    problem.set_objective_function(cost);
    problem.set_optimization_mode(ppl::MAXIMIZATION);
    ppl::MIP_Problem_Status status = problem.solve();
    out.time = std::min(out.time, now() - start);
    out.end = status == ppl::OPTIMIZED_MIP_PROBLEM ? 1 : status == ppl::UNFEASIBLE_MIP_PROBLEM ? 2 : 3;
    if (out.end == 1) {
        mpz_class num, den;
        problem.optimal_value(num, den);
        out.value = mpq_class(num, den);
        out.value.canonicalize();
    }
}

// The mean of the least times of some tries, which take turns, over some programs of which none overflows; and how many overflow.
template <typename Make> static bool line(const char *name, size_t size, Make make) {
    enum { PROGRAMS = 5, TRIES = 5, LEFT = 4 };
    const double enough = 500;
    double ours = 0, qsopt = 0, mip = 0;
    size_t left = 0, rows = 0, cols = 0, bits = 0;
    bool same = true;
    for (unsigned k = 0; k < PROGRAMS; k++) {
        Source source(static_cast<unsigned>(size * 100 + k));
        Program p = make(size, source);
        rows = p.rows;
        cols = p.cols;
        Answer mine, other, third;
        double start = now();
        for (int t = 0; t < TRIES && (t < 1 || now() - start < enough); t++) {
            run_ours(p, mine);
            run_qsopt(p, other);
            run_ppl(p, third);
        }
        bits = std::max(bits, other.bits);
        same &= other.end == third.end && (other.end != 1 || other.value == third.value);
        if (mine.end == LEFT) {
            left++;
            continue;
        }
        same &= mine.end == other.end && (mine.end != 1 || mine.bits == 0 || mine.value == other.value);
        ours += mine.time;
        qsopt += other.time;
        mip += third.time;
    }
    double count = static_cast<double>(PROGRAMS - left);
    printf("| %s | %zu x %zu | %zu | %zu of %d |", name, rows, cols, bits, left, PROGRAMS);
    if (left < PROGRAMS)
        printf(" %.2f | %.2f | %.2f | %.2f | %.2f |%s\n", ours / count, qsopt / count, mip / count, ours / qsopt, ours / mip,
               same ? "" : " DIFFERENT");
    else
        printf(" | | | | |%s\n", same ? "" : " DIFFERENT");
    fflush(stdout);
    return same;
}

// In place of what QSopt_ex would print.
static void say_nothing(const char *, void *) {}

// With the name of a kind and a size: one such program, by ours alone, for a profiler.
static int alone(const std::string &kind, size_t size) {
    Source source(1);
    Answer mine;
    run_ours(kind == "cover"       ? cover(size, source)
             : kind == "transport" ? transport(size, source)
             : kind == "ties"      ? ties(size, source)
                                   : dense(size, kind == "dense99" ? 99 : 9, source),
             mine);
    printf("ended with %u after %.1f ms\n", mine.end, mine.time);
    return mine.end != 1;
}

int main(int argc, char **argv) {
    if (argc == 3) return alone(argv[1], std::stoul(argv[2]));
    QSexactStart();
    QSlog_set_handler(say_nothing, nullptr);
    QSexact_set_precision(128);
    bool same = true;
    puts("| programs | equations x unknowns | bits | Left | ours, ms | QSopt_ex, ms | PPL, ms | beside QSopt_ex | beside PPL |");
    puts("|---|---|---|---|---|---|---|---|---|");
    for (size_t size : {20, 40, 60, 100, 200}) same &= line("dense, to 9", size, [](size_t n, Source &s) { return dense(n, 9, s); });
    for (size_t size : {20, 40, 60, 100}) same &= line("dense, to 99", size, [](size_t n, Source &s) { return dense(n, 99, s); });
    for (size_t size : {5, 10, 15, 20}) same &= line("transport", size, transport);
    for (size_t size : {20, 40, 60, 80}) same &= line("set cover", size, cover);
    for (size_t size : {5, 10, 15, 20}) same &= line("assignment with ties", size, ties);
    // QSopt_ex has taken over the memory of GMP's numbers, and is gone before PPL would give some back.
    std::_Exit(same ? 0 : 1);
}
