// The books that are measured, with amounts that some allocation meets: what every family is made by, and the six families that have been
// measured from the start, each of which has an order. For a run with an idle call the last call is left out of the files.
#pragma once
#include <algorithm>
#include <cstdint>
#include <memory>
#include <numeric>
#include <random>
#include <vector>

struct Pair {
    int lot, call;
    int64_t cost;
};

class KeptGraph;

struct Problem {
    int size = 0;
    std::vector<Pair> pairs;  // by lot, then call
    std::vector<int64_t> lots, calls;
    std::vector<uint8_t> book, amounts, order;  // the files; the order is filled in by the finder
    std::shared_ptr<KeptGraph> kept;            // LEMON's graph of this book, where one is kept

    int64_t total() const { return std::accumulate(lots.begin(), lots.end(), int64_t{0}); }
};

using Numbers = std::vector<int64_t>;
using Matrix = std::vector<Numbers>;         // costs, by lot and call
static constexpr int64_t not_eligible = -1;  // in place of a cost

class Maker;

struct Family {
    const char *name;
    unsigned seed;  // such that no two families draw the same numbers, at whatever sizes
    Matrix (*costs)(Maker &, int size);
};

class Maker {
    std::mt19937 random;

    // Costs with all pairs eligible become 0 in the last column, and 0 or more in the others. What is taken from a whole row or column
    // makes no difference to an order.
    static void free_last(Matrix &cost) {
        for (auto &row : cost) {
            const int64_t last = row.back();
            for (auto &c : row) c -= last;
        }
        for (size_t j = 0; j + 1 < cost.size(); j++) {
            int64_t least = cost[0][j];
            for (auto &row : cost) least = std::min(least, row[j]);
            for (auto &row : cost) row[j] -= least;
        }
    }

    static void put(std::vector<uint8_t> &file, uint64_t number, int bytes) {
        for (int b = 0; b < bytes; b++) file.push_back(uint8_t(number >> 8 * b));
    }

    static std::vector<uint8_t> opening(char kind, int lots, int calls) {
        return {'C', 'L', uint8_t(kind), 1, 0, uint8_t(lots), uint8_t(calls)};
    }

  public:
    Maker(const Family &family, int size) : random(unsigned(size) * 31 + family.seed) {}

    int64_t upto(int64_t most) { return std::uniform_int_distribution<int64_t>(0, most)(random); }

    Numbers numbers(int count, int64_t most) {
        Numbers drawn(count);
        for (auto &number : drawn) number = upto(most);
        return drawn;
    }

    // A Monge matrix: row and column parts less the sums of a density of 0 or more.
    Matrix monge(int size, int cells, int64_t density, int64_t parts) {
        Matrix weight(size, Numbers(size)), cost = weight;
        for (int c = 0; c < cells; c++) weight[upto(size - 1)][upto(size - 1)] += upto(density);
        const Numbers row = numbers(size, parts), column = numbers(size, parts);
        Numbers sums(size);
        for (int i = 0; i < size; i++) {
            int64_t run = 0;
            for (int j = 0; j < size; j++) {
                sums[j] += weight[i][j];
                run += sums[j];
                cost[i][j] = cells * density + row[i] + column[j] - run;
            }
        }
        return cost;
    }

    Matrix shuffled(Matrix cost) {
        std::vector<int> columns(cost.size());
        std::iota(columns.begin(), columns.end(), 0);
        std::shuffle(columns.begin(), columns.end(), random);
        std::shuffle(cost.begin(), cost.end(), random);
        for (auto &row : cost) {
            auto old = row;
            for (size_t j = 0; j < row.size(); j++) row[j] = old[columns[j]];
        }
        return cost;
    }

    // Other amounts for the same book: those of a hidden allocation, so that one meets everything.
    void draw_amounts(Problem &p) {
        const int calls = p.book[6];  // without the idle call
        p.lots.assign(p.size, 0);
        p.calls.assign(p.size, 0);
        for (const Pair &pair : p.pairs) {
            const int64_t units = upto(3) ? 0 : upto(1000);
            p.lots[pair.lot] += units;
            p.calls[pair.call] += units;
        }
        p.amounts = opening('A', p.size, calls);
        for (int64_t amount : p.lots) put(p.amounts, amount, 4);
        for (int j = 0; j < calls; j++) put(p.amounts, p.calls[j], 4);
    }

    // With `idle`, the pairs and amounts are those of the enlarged book, the files those of the book without its idle call.
    Problem make(const Family &family, int size, bool idle) {
        const int calls = size - idle;
        Problem p;
        p.size = size;
        p.book = opening('B', size, calls);
        Matrix cost = family.costs(*this, size);
        if (idle) free_last(cost);
        for (int i = 0; i < size; i++) {
            uint32_t word = 0;
            for (int j = 0; j < calls; j++) word |= uint32_t{cost[i][j] != not_eligible} << j;
            put(p.book, word, 4);
            for (int j = 0; j < size; j++) {
                if (cost[i][j] == not_eligible) continue;
                if (j < calls) put(p.book, cost[i][j], 4);
                p.pairs.push_back({i, j, cost[i][j]});
            }
        }
        draw_amounts(p);
        return p;
    }
};

inline Matrix natural(Maker &maker, int size) { return maker.monge(size, size * size, 400, 100000); }

inline Matrix few_levels(Maker &maker, int size) { return maker.monge(size, 4, 1, 0); }

inline Matrix all_equal(Maker &, int size) { return Matrix(size, Numbers(size, 7)); }

inline Matrix band(Maker &maker, int size) {
    Matrix cost = natural(maker, size);
    for (int i = 0; i < size; i++)
        for (int j = 0; j < size; j++)
            if (std::abs(i - j) > size / 6) cost[i][j] = not_eligible;
    return cost;
}

// A tree: each lot and call beyond the first is tied to an earlier one of the other side, at any cost.
inline Matrix tree(Maker &maker, int size) {
    Matrix cost(size, Numbers(size, not_eligible));
    for (int v = 0; v < size; v++) {
        cost[v][maker.upto(std::max(v - 1, 0))] = maker.upto(1000000);
        cost[maker.upto(v)][v] = maker.upto(1000000);
    }
    return cost;
}

// The books of a family, shuffled.
template <Matrix (*costs)(Maker &, int)>
Matrix shuffled(Maker &maker, int size) {
    return maker.shuffled(costs(maker, size));
}

inline const std::vector<Family> six = {
    {"natural", 'n', natural},
    {"permuted", 'p', shuffled<natural>},
    {"few levels", 'f', shuffled<few_levels>},
    {"all equal", 'a', all_equal},
    {"band", 'b', band},
    {"sparse", 's', shuffled<tree>},
};
static constexpr int complete = 4;  // so many of the six have all pairs eligible, and are measured with an idle call too
