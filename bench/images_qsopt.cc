// The upper image of a vlp file, by linear programs of QSopt_ex, and double description of the Parma Polyhedra Library.
#include "images.hh"

#include <cstdlib>

extern "C" {
#include <qsopt_ex/QSopt_ex.h>
}

// A list of fractions as QSopt_ex takes it.
static mpq_t *raw(Vector &list) {
    static_assert(sizeof(mpq_class) == sizeof(mpq_t));
    return reinterpret_cast<mpq_t *>(list.data());
}

static bool is_bound_of_column(const Inequality &side) {
    return std::count_if(side.normal.begin(), side.normal.end(), [](const mpq_class &x) { return x != 0; }) == 1;
}

// The least z for which some x meets the sides and `P x <= y + z`: how far y is from the image, along the vector of ones.
// With bounds 0 it is the same of a direction. Only the right sides of the objectives change. Each program is solved anew:
// from the basis on where the last one ended, the solver takes longer.
class Distances {
    const Problem &problem;
    size_t rows = 0, cols;
    mpq_QSprob program;
    Vector x, multipliers;
    bool is_crossed = false;

public:
    int status = 0;

    Distances(const Problem &p, bool is_homogeneous) : problem(p), cols(p.columns + 1) {
        Vector lower(cols), upper(cols), right, entries, cost(cols);
        for (size_t j = 0; j < cols; j++) {
            mpq_set(raw(lower)[j], mpq_ILL_MINDOUBLE);
            mpq_set(raw(upper)[j], mpq_ILL_MAXDOUBLE);
        }
        std::vector<Vector> matrix;
        std::string sense;
        for (const Inequality &side : p.sides) {
            mpq_class bound = is_homogeneous ? mpq_class(0) : side.bound;
            if (is_bound_of_column(side)) {
                size_t j = 0;
                while (side.normal[j] == 0) j++;
                mpq_class at = bound / side.normal[j];
                bool is_lower = side.normal[j] > 0;
                Vector &bounds = is_lower ? lower : upper;
                bounds[j] = is_lower ? std::max(bounds[j], at) : std::min(bounds[j], at);
                is_crossed |= lower[j] > upper[j];
            } else {
                matrix.push_back(side.normal);
                right.push_back(bound);
                sense += 'G';
            }
        }
        for (const Vector &objective : p.objectives) matrix.push_back(objective), right.emplace_back(0), sense += 'L';
        for (size_t i = 0; i < matrix.size(); i++) matrix[i].emplace_back(sense[i] == 'L' ? -1 : 0);
        rows = matrix.size();
        std::vector<int> counts(cols), begins(cols), places;
        for (size_t j = 0; j < cols; j++) {
            begins[j] = static_cast<int>(places.size());
            for (size_t i = 0; i < rows; i++)
                if (matrix[i][j] != 0) places.push_back(static_cast<int>(i)), entries.push_back(matrix[i][j]), counts[j]++;
        }
        cost[cols - 1] = 1;
        program = mpq_QSload_prob("p", static_cast<int>(cols), static_cast<int>(rows), counts.data(), begins.data(),
                                  places.data(), raw(entries), QS_MIN, raw(cost), raw(right), sense.data(), raw(lower),
                                  raw(upper), nullptr, nullptr);
        x.resize(cols + rows);
        multipliers.resize(rows);
    }

    // The least cost, which is that of x, and by its multipliers the weights of the objectives.
    mpq_class least(Vector &weights) {
        if (is_crossed)
            status = QS_LP_INFEASIBLE;
        else if (QSexact_solver(program, raw(x), raw(multipliers), nullptr, DUAL_SIMPLEX, &status))
            status = 0;
        size_t first = rows - problem.objectives.size();
        weights.clear();
        for (size_t i = first; i < rows; i++) weights.push_back(-multipliers[i]);
        return x[cols - 1];
    }

    mpq_class at(const Vector &y, Vector &weights) {
        for (size_t i = 0; i < y.size(); i++) {
            mpq_class right = y[i];
            mpq_QSchange_rhscoef(program, static_cast<int>(rows - y.size() + i), right.get_mpq_t());
        }
        return least(weights);
    }

    void change_cost(size_t column, mpq_class cost) { mpq_QSchange_objcoef(program, static_cast<int>(column), cost.get_mpq_t()); }

    // The least `weights . P x` where x meets the sides: the rows of the objectives do not bind x, since z is free.
    mpq_class best_bound(const Vector &weights) {
        Vector cost(cols - 1);
        for (size_t i = 0; i < weights.size(); i++)
            for (size_t j = 0; j + 1 < cols; j++) cost[j] += weights[i] * problem.objectives[i][j];
        for (size_t j = 0; j + 1 < cols; j++) change_cost(j, cost[j]);
        change_cost(cols - 1, 0);
        Vector none;
        least(none);
        for (size_t j = 0; j + 1 < cols; j++) change_cost(j, 0);
        change_cost(cols - 1, 1);
        return product(cost, x);
    }
};

class Programs {
    Distances points, directions;

public:
    explicit Programs(const Problem &p) : points(p, false), directions(p, true) {}

    Reply at_point(const Vector &y, Inequality &cut) {
        mpq_class distance = points.at(y, cut.normal);
        if (points.status == QS_LP_INFEASIBLE) return Reply::infeasible;
        if (points.status == QS_LP_UNBOUNDED) return Reply::whole;
        if (points.status != QS_LP_OPTIMAL) std::_Exit(1);
        cut.bound = distance + product(cut.normal, y);
        return distance > 0 ? Reply::out : Reply::in;
    }

    // A cut at a direction has the best bound of its weights.
    Reply at_direction(const Vector &d, Inequality &cut) {
        mpq_class distance = directions.at(d, cut.normal);
        if (directions.status == QS_LP_UNBOUNDED) return Reply::whole;
        if (directions.status != QS_LP_OPTIMAL) std::_Exit(1);
        if (distance <= 0) return Reply::in;
        cut.bound = points.best_bound(cut.normal);
        if (points.status == QS_LP_INFEASIBLE) return Reply::infeasible;
        if (points.status != QS_LP_OPTIMAL) std::_Exit(1);
        return Reply::out;
    }
};

// In place of what QSopt_ex would print.
static void say_nothing(const char *, void *) {}

int main(int argc, char **argv) {
    if (argc != 2) return 2;
    QSexactStart();
    QSlog_set_handler(say_nothing, nullptr);
    QSexact_set_precision(128);
    Problem problem = read(argv[1]);
    Programs programs(problem);
    Outer<Programs>(problem, programs).solve(problem);
    // QSopt_ex has taken over the memory of GMP's numbers, and is gone before PPL would give some back.
    fflush(stdout);
    std::_Exit(0);
}
