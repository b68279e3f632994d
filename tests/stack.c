/* Measures the stack that each call takes on the largest book, with an order that passes and with one that fails; on that book less one
 * pair; and on one that is Monge by no ranks, so that the finder asks the lots. The run with an idle call and the ticket panel's are measured
 * on the largest books that they take, of 31 calls and of eight by eight, and the longest calls on books and amounts of version 2 too. The
 * first of all has the loader bind memcpy on its stack where that is done late. The call runs in a thread whose stack was filled with a
 * pattern. Fails if a call takes more than the header says, of all calls or of the panel's. bench/run puts the figures on its page. */
#define _GNU_SOURCE
#include <pthread.h>
#include <stdio.h>
#include <string.h>
#include <sys/mman.h>

#include "placer.h"

enum { SIZE = 1 << 20, PATTERN = 0xa5 };

/* A book and amounts for it. */
struct desk {
    uint8_t book[PLACER_BOOK_MAX], amounts[PLACER_AMOUNTS_MAX];
    size_t book_len, amounts_len;
};

static struct desk largest, less_one, levels, rebates, of_31, of_31_less_one, levels_of_31, rebates_of_31;
static struct desk eight, eight_less_one, rebates_of_8;
static const struct desk *on;
static uint8_t order[PLACER_ORDER_MAX] = "CLO\1\0\0\4";
static uint32_t flow[PLACER_FLOW_MAX];
static placer_reply last;

static uint8_t *put(uint8_t *at, uint32_t value)
{
    for (int k = 0; k < 4; k++) at[k] = (uint8_t)(value >> 8 * k);
    return at + 4;
}

/* Monge as the lots and calls are numbered. */
static uint32_t falling(uint32_t lot, uint32_t call) { return 1000 - lot * call; }

/* Two levels, the low one where lot and call reach a number together: there is an order, and no ranks by which this is Monge. */
static uint32_t level(uint32_t lot, uint32_t call) { return lot + call < 31 ? 1000 : 0; }

/* All pairs, less so many of lot 0 with the last calls; every amount at the limit. In version 2 the costs are below zero, and the amounts
 * have reserves. */
static void fill(struct desk *desk, uint32_t (*cost)(uint32_t, uint32_t), uint8_t version, uint32_t lots, uint32_t calls, uint32_t missing)
{
    uint8_t *at = desk->book + 7;
    uint32_t rebate = version == 2 ? PLACER_COST_MAX : 0;
    memcpy(desk->book, "CLB\1", 5), memcpy(desk->amounts, "CLA\1", 5);
    desk->book[3] = desk->amounts[3] = version;
    desk->book[5] = desk->amounts[5] = (uint8_t)lots, desk->book[6] = desk->amounts[6] = (uint8_t)calls;
    for (uint32_t lot = 0; lot < lots; lot++) {
        uint32_t count = lot == 0 ? calls - missing : calls;
        at = put(at, UINT32_MAX >> (32 - count));
        for (uint32_t call = 0; call < count; call++) at = put(at, cost(lot, call) - rebate);
    }
    desk->book_len = (size_t)(at - desk->book);
    at = desk->amounts + 7;
    for (uint32_t k = 0; k < lots + calls; k++) at = put(at, PLACER_AMOUNT_MAX);
    for (uint32_t lot = 0; version == 2 && lot < lots; lot++) at = put(at, 1);
    desk->amounts_len = (size_t)(at - desk->amounts);
}

static void *nothing(void *unused) { return unused; }
static void *read_book(void *unused) { return last = placer_read_book(on->book, on->book_len), unused; }
static void *lot_costs(void *unused) { return last.values[0] = placer_lot_costs(on->book, on->book_len, 31).len, unused; }
static void *pair_cost(void *unused) { return last = placer_pair_cost(on->book, on->book_len, 31, 31), unused; }
static void *read_amounts(void *unused)
{
    return last = placer_read_amounts(on->book, on->book_len, on->amounts, on->amounts_len), unused;
}
static void *check_order(void *unused) { return last = placer_check_order(on->book, on->book_len, order, sizeof order), unused; }
static void *find_order(void *unused) { return last = placer_find_order(on->book, on->book_len, order, sizeof order), unused; }
static void *run_order(void *unused)
{
    last = placer_run_order(on->book, on->book_len, order, sizeof order, on->amounts, on->amounts_len, flow, PLACER_FLOW_MAX);
    return unused;
}
static void *find_and_run(void *unused)
{
    return last = placer_find_and_run(on->book, on->book_len, on->amounts, on->amounts_len, flow, PLACER_FLOW_MAX), unused;
}
static void *find_and_run_idle(void *unused)
{
    return last = placer_find_and_run_idle(on->book, on->book_len, on->amounts, on->amounts_len, flow, PLACER_FLOW_MAX), unused;
}
static void *find_and_run_panel(void *unused)
{
    return last = placer_find_and_run_panel(on->book, on->book_len, on->amounts, on->amounts_len, flow, PLACER_FLOW_MAX), unused;
}

static size_t used(void *(*call)(void *))
{
    uint8_t *stack = (uint8_t *)mmap(NULL, SIZE, PROT_READ | PROT_WRITE, MAP_PRIVATE | MAP_ANONYMOUS, -1, 0);
    pthread_attr_t attributes;
    pthread_t thread;
    memset(stack, PATTERN, SIZE);
    pthread_attr_init(&attributes);
    pthread_attr_setstack(&attributes, stack, SIZE);
    if (pthread_create(&thread, &attributes, call, NULL) != 0 || pthread_join(thread, NULL) != 0) return SIZE;
    size_t kept = 0;
    while (kept < SIZE && stack[kept] == PATTERN) kept++;
    munmap(stack, SIZE);
    return SIZE - kept;
}

/* The calls in turn, each with the number it has to reply. */
static const struct {
    const char *name;
    void *(*call)(void *);
    const struct desk *desk;
    uint32_t number;
} calls[] = {{"find_and_run_panel, first of all", find_and_run_panel, &eight, 0},
             {"read_book", read_book, &largest, 0},
             {"lot_costs", lot_costs, &largest, 0},
             {"pair_cost", pair_cost, &largest, 0},
             {"read_amounts", read_amounts, &largest, 0},
             {"read_amounts, version 2", read_amounts, &rebates, 0},
             {"check_order, failing", check_order, &largest, PLACER_CROSS_SUM_TOO_HIGH},
             {"find_order", find_order, &largest, 0},
             {"check_order", check_order, &largest, 0},
             {"run_order", run_order, &largest, 0},
             {"run_order, version 2", run_order, &rebates, 0},
             {"find_and_run", find_and_run, &largest, 0},
             {"find_and_run_idle, 31 calls", find_and_run_idle, &of_31, 0},
             {"find_order, a pair missing", find_order, &less_one, 0},
             {"find_and_run, a pair missing", find_and_run, &less_one, 0},
             {"find_and_run_idle, 31 calls, a pair missing", find_and_run_idle, &of_31_less_one, 0},
             {"find_order, two levels", find_order, &levels, 0},
             {"find_and_run, two levels", find_and_run, &levels, 0},
             {"find_and_run_idle, 31 calls, two levels", find_and_run_idle, &levels_of_31, 0},
             {"find_and_run, version 2", find_and_run, &rebates, 0},
             {"find_and_run_idle, 31 calls, version 2", find_and_run_idle, &rebates_of_31, 0},
             {"find_and_run, 8 by 8", find_and_run, &eight, 0},
             {"find_and_run_panel", find_and_run_panel, &eight, 0},
             {"find_and_run_panel, a pair missing", find_and_run_panel, &eight_less_one, 0},
             {"find_and_run_panel, version 2", find_and_run_panel, &rebates_of_8, 0}};

/* Whether a call keeps within what the header says of it. */
static int keeps_within(const char *name, size_t most, size_t bound)
{
    printf("stack: %s%zu bytes at most%s, the header says %zu\n", name, most, most > bound ? ", TOO MANY" : "", bound);
    return most <= bound;
}

int main(void)
{
    fill(&largest, falling, 1, 32, 32, 0), fill(&less_one, falling, 1, 32, 32, 1), fill(&levels, level, 1, 32, 32, 0);
    fill(&of_31, falling, 1, 32, 31, 0), fill(&of_31_less_one, falling, 1, 32, 31, 1), fill(&levels_of_31, level, 1, 32, 31, 0);
    fill(&rebates, falling, 2, 32, 32, 0), fill(&rebates_of_31, falling, 2, 32, 31, 0);
    fill(&eight, falling, 1, 8, 8, 0), fill(&eight_less_one, falling, 1, 8, 8, 1), fill(&rebates_of_8, falling, 2, 8, 8, 0);
    for (size_t k = 0; k < 1024; k++) order[7 + 2 * k] = (uint8_t)(k / 32), order[8 + 2 * k] = (uint8_t)(31 - k % 32);
    size_t before = used(nothing), most = 0, most_of_panel = 0;
    for (size_t k = 0; k < sizeof calls / sizeof calls[0]; k++) {
        on = calls[k].desk;
        size_t bytes = used(calls[k].call) - before;
        printf("stack: %s takes %zu bytes\n", calls[k].name, bytes);
        if (last.number != calls[k].number) return printf("stack: %s replied %u\n", calls[k].name, (unsigned)last.number), 1;
        if (bytes > most) most = bytes;
        if (calls[k].call == find_and_run_panel && bytes > most_of_panel) most_of_panel = bytes;
    }
    int within = keeps_within("", most, PLACER_STACK);
    return !(keeps_within("find_and_run_panel: ", most_of_panel, PLACER_PANEL_STACK) && within);
}
