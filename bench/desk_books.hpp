// The books that a desk has, each family with an order, and the books that have none.
#pragma once
#include "books.hpp"

inline Numbers sorted(Numbers numbers) {
    std::sort(numbers.begin(), numbers.end());
    return numbers;
}

// A number of each lot and one of each call, and a rate of the lot times a term of the call.
inline Matrix sums_and_products(Maker &maker, const Numbers &rates, const Numbers &terms) {
    const int size = int(rates.size());
    const Numbers lots = maker.numbers(size, 100000), calls = maker.numbers(size, 100000);
    Matrix cost(size, Numbers(size));
    for (int i = 0; i < size; i++)
        for (int j = 0; j < size; j++) cost[i][j] = lots[i] + calls[j] + rates[i] * terms[j];
    return cost;
}

inline Matrix sums(Maker &maker, int size) { return sums_and_products(maker, Numbers(size), Numbers(size)); }

// Monge, since the rates rise and the terms fall.
inline Matrix haircut(Maker &maker, int size) {
    const Numbers rates = sorted(maker.numbers(size, 800)), rising = sorted(maker.numbers(size, 800));
    return sums_and_products(maker, rates, {rising.rbegin(), rising.rend()});
}

// A Monge book less the pair of the first lot and the last call, or the last lot and the first call: it stays Monge, whatever its costs.
template <Matrix (*costs)(Maker &, int)>
Matrix less_corner(Maker &maker, int size) {
    Matrix cost = costs(maker, size);
    (maker.upto(1) ? cost.front().back() : cost.back().front()) = not_eligible;
    return cost;
}

template <Matrix (*costs)(Maker &, int)>
Matrix less_any(Maker &maker, int size) {
    Matrix cost = costs(maker, size);
    cost[maker.upto(size - 1)][maker.upto(size - 1)] = not_eligible;
    return cost;
}

// Grades from 0 to 9: a lot serves the calls that ask for its grade or a lower one.
inline Matrix grades(Maker &maker, int size) {
    Matrix cost = sums(maker, size);
    const Numbers grade = maker.numbers(size, 9), asked = maker.numbers(size, 9);
    for (int i = 0; i < size; i++)
        for (int j = 0; j < size; j++)
            if (grade[i] < asked[j]) cost[i][j] = not_eligible;
    return cost;
}

// The low cost where a lot's number reaches the call's. An order: the low costs of the lots in turn, those with the fewest first.
inline Matrix two_levels(Maker &maker, int size) {
    const Numbers lots = maker.numbers(size, 999), calls = maker.numbers(size, 999);
    Matrix cost(size, Numbers(size));
    for (int i = 0; i < size; i++)
        for (int j = 0; j < size; j++) cost[i][j] = lots[i] < calls[j] ? 50 : 20;
    return cost;
}

// Monge costs; a lot serves an interval of calls, and both ends of it rise from lot to lot.
inline Matrix intervals(Maker &maker, int size) {
    Matrix cost = natural(maker, size);
    Numbers first = maker.numbers(size, size - 1), last = maker.numbers(size, size - 1);
    for (int i = 0; i < size; i++)
        if (first[i] > last[i]) std::swap(first[i], last[i]);
    first = sorted(first), last = sorted(last);
    for (int i = 0; i < size; i++)
        for (int j = 0; j < size; j++)
            if (j < first[i] || j > last[i]) cost[i][j] = not_eligible;
    return cost;
}

inline Matrix any_costs(Maker &maker, int size) {
    Matrix cost;
    while (int(cost.size()) < size) cost.push_back(maker.numbers(size, 1000000));
    return cost;
}

// Many such books have no order; the others are left out.
inline Matrix one_spoilt(Maker &maker, int size) {
    Matrix cost = natural(maker, size);
    int64_t &spoilt = cost[maker.upto(size - 1)][maker.upto(size - 1)];
    const int64_t change = maker.upto(100000);
    spoilt = maker.upto(1) ? spoilt + change : std::max<int64_t>(spoilt - change, 0);
    return cost;
}

// The last three lots and calls have rates and terms far from all others', and 100 more on their diagonal, so that no pair of the nine can
// be taken. All other pairs can, before them.
inline Matrix three_block(Maker &maker, int size) {
    Numbers rates = sorted(maker.numbers(size - 3, 400)), rising = sorted(maker.numbers(size - 3, 400)), terms = {398, 399, 400};
    rates.insert(rates.end(), {500, 501, 502});
    for (int64_t number : rising) terms.push_back(500 + number);
    Matrix cost = sums_and_products(maker, rates, {terms.rbegin(), terms.rend()});
    for (int v = size - 3; v < size; v++) cost[v][v] += 100;
    return cost;
}

inline const std::vector<Family> desk = {
    {"natural -1", 2000, less_corner<natural>},
    {"permuted -1", 4000, shuffled<less_corner<natural>>},
    {"few levels -1", 6000, shuffled<less_corner<few_levels>>},
    {"all equal -1", 8000, less_any<all_equal>},
    {"haircut", 10000, haircut},
    {"haircut shuffled", 12000, shuffled<haircut>},
    {"haircut -1", 14000, shuffled<less_corner<haircut>>},
    {"sums, one gap", 16000, less_any<sums>},
    {"grades", 18000, grades},
    {"two levels", 20000, two_levels},
    {"intervals", 22000, shuffled<intervals>},
};

inline const std::vector<Family> without_order = {
    {"one cost spoilt", 24000, shuffled<one_spoilt>},
    {"any costs", 26000, any_costs},
    {"3 by 3 blocks", 28000, shuffled<three_block>},
};
