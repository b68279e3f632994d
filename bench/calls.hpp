// The calls that are measured, each with the number of its books in a round and of its rounds: our entry points, and the solvers beside
// them. A call answers with units and cost, so that every answer can be compared.
#pragma once
#include <placer.h>

#include <functional>

#include "solvers.hpp"

static thread_local uint32_t flow[1024];
static uint8_t order[2055];

static Answer placed(const placer_reply &reply) {
    return reply.number || reply.verdict != 1 ? Answer{-1, -1} : Answer{int64_t(reply.values[0]), int64_t(reply.values[1])};
}

static placer_reply find_and_run(const Problem &p) {
    return placer_find_and_run(p.book.data(), p.book.size(), p.amounts.data(), p.amounts.size(), flow, 1024);
}

static Answer by_find_and_run(const Problem &p) { return placed(find_and_run(p)); }

static Answer by_find_and_run_panel(const Problem &p) {
    return placed(placer_find_and_run_panel(p.book.data(), p.book.size(), p.amounts.data(), p.amounts.size(), flow, 1024));
}

static Answer by_run(const Problem &p) {
    return placed(placer_run_order(p.book.data(), p.book.size(), p.order.data(), p.order.size(), p.amounts.data(), p.amounts.size(), flow,
                                   1024));
}

// With the idle call's units, as LEMON answers of the enlarged book.
static Answer by_find_and_run_idle(const Problem &p) {
    const placer_reply reply = placer_find_and_run_idle(p.book.data(), p.book.size(), p.amounts.data(), p.amounts.size(), flow, 1024);
    const bool met = !reply.number && reply.verdict == (p.calls.back() ? PLACER_COVERED : PLACER_FULL);
    return met ? Answer{int64_t(reply.values[0]) + p.calls.back(), int64_t(reply.values[1])} : Answer{-1, -1};
}

// The calls that do not place answer the right placing if their own answer is right.
static Answer if_right(bool right, const Answer &expected) { return right ? expected : Answer{-1, -1}; }

static Answer reads(const Problem &p, const Answer &expected) {
    return if_right(placer_read_book(p.book.data(), p.book.size()).number == 0, expected);
}

static Answer checks(const Problem &p, const Answer &expected) {
    const placer_reply reply = placer_check_order(p.book.data(), p.book.size(), p.order.data(), p.order.size());
    return if_right(reply.number == 0 && reply.values[0] == p.pairs.size(), expected);
}

static placer_reply find(const Problem &p) { return placer_find_order(p.book.data(), p.book.size(), order, sizeof order); }

static Answer finds(const Problem &p, const Answer &expected) {
    const placer_reply reply = find(p);
    return if_right(reply.number == 0 && reply.values[0] == p.order.size(), expected);
}

static Answer finds_none(const Problem &p, const Answer &expected) { return if_right(find_and_run(p).number == PLACER_NO_ORDER, expected); }

struct Call {
    const char *name;
    size_t books, rounds;  // slow solvers get fewer
    std::function<Answer(const Problem &, const Answer &)> run;
};

template <Answer (*by)(const Problem &)>
static constexpr auto placing = [](const Problem &p, const Answer &) { return by(p); };

static const std::vector<Call> calls = {
    {"read_book", 64, 21, reads},
    {"check_order", 64, 21, checks},
    {"run_order", 64, 21, placing<by_run>},
    {"find_order", 64, 21, finds},
    {"find_and_run", 64, 21, placing<by_find_and_run>},
    {"LEMON", 64, 21, placing<by_lemon>},
    {"CLP", 8, 3, placing<by_clp>},
    {"GLPK", 8, 3, placing<by_glpk>},
};

static const std::vector<Call> kept_calls = {
    {"run_order, kept", 64, 11, placing<by_run>},
    {"LEMON, graph kept", 64, 11, placing<by_kept_graph>},
};

static const std::vector<Call> desk_calls = {
    {"find_order", 64, 11, finds},
    {"find_and_run", 64, 11, placing<by_find_and_run>},
    {"LEMON", 64, 11, placing<by_lemon>},
};

static const std::vector<Call> no_order_calls = {
    {"find_and_run", 64, 11, finds_none},
    {"LEMON", 64, 11, placing<by_lemon>},
};

static const std::vector<Call> thread_calls = {
    {"run_order", 64, 1, placing<by_run>},
    {"find_and_run", 64, 1, placing<by_find_and_run>},
};

static const std::vector<Call> idle_calls = {
    {"find_and_run_idle", 64, 21, placing<by_find_and_run_idle>},
    {"LEMON, idle", 64, 21, placing<by_lemon>},
};

// More books than elsewhere: the calls are so short that a reading of the clock would count beside 64 of them. LEMON runs before each of
// our two calls, since of two in a row on the same books the second is faster; the page shows its first figure.
static const std::vector<Call> panel_calls = {
    {"find_and_run_panel", 256, 21, placing<by_find_and_run_panel>},
    {"LEMON, panel", 256, 21, placing<by_lemon>},
    {"find_and_run, panel", 256, 21, placing<by_find_and_run>},
    {"LEMON, panel, again", 256, 21, placing<by_lemon>},
};
