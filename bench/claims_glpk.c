/* What GLPK's library does with numbers outside its ranges.
 *   glpk FILE     solves DIMACS text by the integer flow routine, and prints "solved COST", "refused as data" or "no solution"
 *   glpk          sets the bounds of row 2 of a problem with one row, and prints "went on" if the process still runs */
#include <glpk.h>
#include <stddef.h>
#include <stdio.h>

typedef struct {
    double least, most, cost;
} arc;

static int solve(const char *path) {
    const int least = offsetof(arc, least), most = offsetof(arc, most), cost = offsetof(arc, cost);
    glp_graph *graph = glp_create_graph(sizeof(double), sizeof(arc)); /* a node has its supply alone */
    double sum = 0;
    glp_term_out(GLP_OFF);
    if (glp_read_mincost(graph, 0, least, most, cost, path) != 0) return 1;
    const int reply = glp_mincost_okalg(graph, 0, least, most, cost, &sum, -1, -1);
    if (reply == 0)
        printf("solved %.0f\n", sum);
    else
        puts(reply == GLP_EDATA ? "refused as data" : "no solution");
    glp_delete_graph(graph);
    return 0;
}

static void set_a_row(void) {
    glp_prob *problem = glp_create_prob();
    glp_add_rows(problem, 1);
    glp_set_row_bnds(problem, 2, GLP_FX, 0, 0);
    puts("went on");
    glp_delete_prob(problem);
}

int main(int argc, char **argv) {
    if (argc > 1) return solve(argv[1]);
    set_a_row();
    return 0;
}
