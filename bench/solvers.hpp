// The same placing by LEMON's network simplex, by CLP and by GLPK: built from lists in memory, then solved; by LEMON also with what it can
// keep.
#pragma once
#include <coin/ClpSimplex.hpp>
#include <glpk.h>
#include <lemon/network_simplex.h>
#include <lemon/smart_graph.h>

#include <cmath>

#include "books.hpp"

struct Answer {
    int64_t units, cost;
    bool operator==(const Answer &other) const { return units == other.units && cost == other.cost; }
};

using Graph = lemon::SmartDigraph;
using Simplex = lemon::NetworkSimplex<Graph, int64_t, int64_t>;
using Costs = Graph::ArcMap<int64_t>;
using Supplies = Graph::NodeMap<int64_t>;

// Lot v is node v, and call v is node size + v.
inline void add_nodes(Graph &graph, const Problem &p) {
    graph.reserveNode(2 * p.size);
    graph.reserveArc(int(p.pairs.size()));
    for (int v = 0; v < 2 * p.size; v++) graph.addNode();
}

inline void add_pairs(Graph &graph, Costs &cost, const Problem &p) {
    for (const Pair &pair : p.pairs) cost[graph.addArc(graph.nodeFromId(pair.lot), graph.nodeFromId(p.size + pair.call))] = pair.cost;
}

inline void set_amounts(const Graph &graph, Supplies &supply, const Problem &p) {
    for (int v = 0; v < p.size; v++) {
        supply[graph.nodeFromId(v)] = p.lots[v];
        supply[graph.nodeFromId(p.size + v)] = -p.calls[v];
    }
}

inline Answer solved_by(Simplex &simplex, const Graph &graph) {
    if (simplex.run() != simplex.OPTIMAL) return {-1, -1};
    Answer answer{0, simplex.totalCost()};
    for (Graph::ArcIt arc(graph); arc != lemon::INVALID; ++arc) answer.units += simplex.flow(arc);
    return answer;
}

inline Answer by_lemon(const Problem &p) {
    Graph graph;
    add_nodes(graph, p);
    Costs cost(graph);
    Supplies supply(graph);
    set_amounts(graph, supply, p);
    add_pairs(graph, cost, p);
    Simplex simplex(graph);
    simplex.supplyMap(supply).costMap(cost);
    return solved_by(simplex, graph);
}

// A book's graph with its costs, and the solver: what LEMON can keep where only the amounts are new. It solves from nothing all the same,
// since it takes no earlier solution to start from.
class KeptGraph {
    Graph graph;
    Supplies supply{graph};
    std::unique_ptr<Simplex> simplex;

  public:
    explicit KeptGraph(const Problem &p) {
        add_nodes(graph, p);
        Costs cost(graph);
        add_pairs(graph, cost, p);
        simplex = std::make_unique<Simplex>(graph);
        simplex->costMap(cost);
    }

    Answer place(const Problem &p) {
        set_amounts(graph, supply, p);
        simplex->supplyMap(supply);
        return solved_by(*simplex, graph);
    }
};

inline Answer by_kept_graph(const Problem &p) { return p.kept->place(p); }

inline Answer by_clp(const Problem &p) {
    const int pairs = int(p.pairs.size());
    std::vector<CoinBigIndex> starts(pairs + 1);
    std::vector<int> rows(2 * pairs);
    std::vector<double> ones(2 * pairs, 1.0), least(pairs, 0.0), most(pairs, COIN_DBL_MAX), cost(pairs), amounts;
    amounts.assign(p.lots.begin(), p.lots.end());
    amounts.insert(amounts.end(), p.calls.begin(), p.calls.end());
    for (int a = 0; a < pairs; a++) {
        starts[a + 1] = 2 * (a + 1);
        rows[2 * a] = p.pairs[a].lot;
        rows[2 * a + 1] = p.size + p.pairs[a].call;
        cost[a] = double(p.pairs[a].cost);
    }
    ClpSimplex model;
    model.setLogLevel(0);
    model.loadProblem(pairs, 2 * p.size, starts.data(), rows.data(), ones.data(), least.data(), most.data(), cost.data(), amounts.data(),
                      amounts.data());
    model.dual();
    if (!model.isProvenOptimal()) return {-1, -1};
    const double *flow = model.getColSolution();
    return {std::llround(std::accumulate(flow, flow + pairs, 0.0)), std::llround(model.getObjValue())};
}

inline Answer by_glpk(const Problem &p) {
    glp_prob *model = glp_create_prob();
    glp_add_rows(model, 2 * p.size);
    for (int v = 0; v < p.size; v++) {
        glp_set_row_bnds(model, 1 + v, GLP_FX, double(p.lots[v]), double(p.lots[v]));
        glp_set_row_bnds(model, 1 + p.size + v, GLP_FX, double(p.calls[v]), double(p.calls[v]));
    }
    glp_add_cols(model, int(p.pairs.size()));
    int column = 0;
    for (const Pair &pair : p.pairs) {
        const int rows[] = {0, 1 + pair.lot, 1 + p.size + pair.call};
        const double ones[] = {0, 1, 1};
        glp_set_col_bnds(model, ++column, GLP_LO, 0, 0);
        glp_set_obj_coef(model, column, double(pair.cost));
        glp_set_mat_col(model, column, 2, rows, ones);
    }
    glp_smcp options;
    glp_init_smcp(&options);
    options.msg_lev = GLP_MSG_OFF;
    Answer answer{-1, -1};
    if (glp_simplex(model, &options) == 0 && glp_get_status(model) == GLP_OPT) {
        double units = 0;
        for (int c = 1; c <= column; c++) units += glp_get_col_prim(model, c);
        answer = {std::llround(units), std::llround(glp_get_obj_val(model))};
    }
    glp_delete_prob(model);
    return answer;
}
