// Solves DIMACS text by LEMON's network simplex with its default number type, the 32-bit int.
//   lemon FILE GEQ|LEQ      GEQ: units of the calls may stay open; LEQ: of the lots. GEQ is LEMON's default.
// Prints the verdict and the cost, and in the columns' names of GLPK the units of each arc.
#include <lemon/dimacs.h>
#include <lemon/network_simplex.h>
#include <lemon/smart_graph.h>

#include <cstdio>
#include <fstream>
#include <string>

int main(int argc, char **argv) {
    if (argc != 3) return 2;
    std::ifstream text(argv[1]);
    lemon::SmartDigraph graph;
    lemon::SmartDigraph::ArcMap<int> least(graph), most(graph), cost(graph);
    lemon::SmartDigraph::NodeMap<int> supply(graph);
    lemon::readDimacsMin(text, graph, least, most, cost, supply);
    lemon::NetworkSimplex<lemon::SmartDigraph> simplex(graph);
    simplex.lowerMap(least).upperMap(most).costMap(cost).supplyMap(supply);
    simplex.supplyType(argv[2] == std::string("LEQ") ? simplex.LEQ : simplex.GEQ);
    const auto verdict = simplex.run();
    std::printf("%s %d\n", verdict == simplex.OPTIMAL ? "optimal" : verdict == simplex.INFEASIBLE ? "infeasible" : "unbounded",
                simplex.totalCost());
    for (lemon::SmartDigraph::ArcIt arc(graph); arc != lemon::INVALID; ++arc)
        std::printf("x[%d,%d] %d\n", graph.id(graph.source(arc)) + 1, graph.id(graph.target(arc)) + 1, simplex.flow(arc));
    return 0;
}
