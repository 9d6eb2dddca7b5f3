// The upper image of a vlp file, by linear programs and double description of the Parma Polyhedra Library alone.
#include "images.hh"

// Multipliers u of the sides and weights w of the objectives, with `G' u = P' w`, of sum 1 and at least 0. Their greatest
// `beta . u - w . y` is how far the point y is from the image, along the vector of ones; of a direction d it is `- w . d`.
// Only the objective changes, so that each program starts where the last one ended.
class Programs {
    const Problem &problem;
    size_t sides, width;
    ppl::MIP_Problem program;
    bool is_feasible;

    // The greatest value of `u_cost . u + w_cost . w` over the multipliers, and where it is reached.
    static bool maximise(ppl::MIP_Problem &program, const Vector &cost, Vector &best, mpq_class &value) {
        mpz_class by = common_denominator(cost);
        program.set_objective_function(multiple(cost, by));
        if (program.solve() != ppl::OPTIMIZED_MIP_PROBLEM) return false;
        const ppl::Generator &point = program.optimizing_point();
        mpz_class divisor = point.divisor();
        best.clear();
        for (size_t k = 0; k < cost.size(); k++) {
            best.emplace_back(mpz_class(point.coefficient(ppl::Variable(k))), divisor);
            best.back().canonicalize();
        }
        value = product(cost, best);
        return true;
    }

    Vector cost(bool takes_bounds, const Vector &y) const {
        Vector all(sides + width);
        for (size_t h = 0; takes_bounds && h < sides; h++) all[h] = problem.sides[h].bound;
        for (size_t i = 0; i < y.size(); i++) all[sides + i] = -y[i];
        return all;
    }

    Inequality cut_at(const Vector &best) const {
        Inequality cut{Vector(best.begin() + static_cast<long>(sides), best.end()), 0};
        for (size_t h = 0; h < sides; h++) cut.bound += problem.sides[h].bound * best[h];
        return cut;
    }

    bool has_point() const {
        ppl::MIP_Problem system(problem.columns);
        for (const Inequality &side : problem.sides) system.add_constraint(constraint(side));
        return system.is_satisfiable();
    }

public:
    explicit Programs(const Problem &p) : problem(p), sides(p.sides.size()), width(p.objectives.size()), program(sides + width) {
        for (size_t k = 0; k < sides + width; k++) program.add_constraint(ppl::Variable(k) >= 0);
        for (size_t j = 0; j < p.columns; j++) {
            Vector row;
            for (const Inequality &side : p.sides) row.push_back(side.normal[j]);
            for (const Vector &objective : p.objectives) row.push_back(-objective[j]);
            program.add_constraint(multiple(row, common_denominator(row)) == 0);
        }
        ppl::Linear_Expression sum;
        for (size_t i = 0; i < width; i++) sum += ppl::Variable(sides + i);
        program.add_constraint(sum == 1);
        program.set_control_parameter(ppl::MIP_Problem::PRICING_STEEPEST_EDGE_EXACT);
        program.set_optimization_mode(ppl::MAXIMIZATION);
        is_feasible = program.is_satisfiable();
    }

    Reply at_point(const Vector &y, Inequality &cut) {
        if (!is_feasible) return has_point() ? Reply::whole : Reply::infeasible;
        Vector best;
        mpq_class value;
        if (!maximise(program, cost(true, y), best, value)) return Reply::infeasible;
        if (value <= 0) return Reply::in;
        cut = cut_at(best);
        return Reply::out;
    }

    // A cut at a direction has the best bound of its weights.
    Reply at_direction(const Vector &d, Inequality &cut) {
        if (!is_feasible) return has_point() ? Reply::whole : Reply::infeasible;
        Vector best;
        mpq_class value;
        maximise(program, cost(false, d), best, value);
        if (value <= 0) return Reply::in;
        ppl::MIP_Problem same_weights(program);
        for (size_t i = 0; i < width; i++) {
            const mpq_class &w = best[sides + i];
            same_weights.add_constraint(w.get_den() * ppl::Variable(sides + i) == w.get_num());
        }
        if (!maximise(same_weights, cost(true, {}), best, value)) return Reply::infeasible;
        cut = cut_at(best);
        return Reply::out;
    }
};

int main(int argc, char **argv) {
    if (argc != 2) return 2;
    Problem problem = read(argv[1]);
    Programs programs(problem);
    Outer<Programs>(problem, programs).solve(problem);
    return 0;
}
