/* Wrong libraries, which the fuzzing has to notice. It is built with this file in place of fuzz_call.c, which is read in at the end: the
 * calls here then stand between it and the library, and make the error that WRONG in the environment names. tests/run tries each of them,
 * one a line; without WRONG nothing is wrong. */
#define _GNU_SOURCE
#include "placer.h"

#include <stdlib.h>
#include <string.h>

#define RUN_OF const uint8_t *book, size_t book_len, const uint8_t *amounts, size_t amounts_len, uint32_t *flow, size_t flow_len
#define RUN book, book_len, amounts, amounts_len, flow, flow_len

static int wrong(const char *error)
{
    static const char *named;
    if (named == NULL) named = getenv("WRONG") != NULL ? getenv("WRONG") : "";
    return strcmp(named, error) == 0;
}

static placer_reply wrong_find_and_run(RUN_OF)
{
    static uint32_t times;
    placer_reply reply = placer_find_and_run(RUN);
    int ran = reply.number == 0;
    size_t entries = ran ? (size_t)book[5] * book[6] : 0;
    if (wrong("entry_after_the_flow") && ran && entries < flow_len) flow[entries] = 0;
    if (wrong("entry_after_the_buffer") && ran) flow[flow_len] = 0;
    if (wrong("entry_before_the_buffer") && ran) flow[-1] = 0;
    if (wrong("written_on_refusal") && reply.number == PLACER_NO_ORDER && flow_len > 0) flow[0] = 0;
    if (wrong("file_written") && ran) ((uint8_t *)(uintptr_t)amounts)[amounts_len - 1] ^= 1;
    if (wrong("covered_is_full") && reply.verdict == PLACER_COVERED) reply.verdict = PLACER_FULL;
    if (wrong("cost_and_one") && ran) reply.values[1]++;
    if (wrong("value_not_used") && reply.number == PLACER_NO_ORDER) reply.values[3] = 1;
    if (wrong("17_before_16") && reply.number == PLACER_AMOUNT_TOO_HIGH && flow_len == 0) reply.number = PLACER_BUFFER_TOO_SHORT;
    if (wrong("another_reply_the_next_time") && ran && ++times % 64 == 0) reply.verdict = reply.verdict % 3 + 1;
    if (wrong("one_unit_not_placed") && ran && entries > 0 && flow[0] > 0) {
        flow[0]--, reply.values[0]--, reply.values[1] -= placer_pair_cost(book, book_len, 0, 0).values[1];
        reply.verdict = PLACER_SHORT;
    }
    return reply;
}

static placer_reply wrong_find_and_run_idle(RUN_OF)
{
    placer_reply reply = placer_find_and_run_idle(RUN);
    if (wrong("idle_call_left_out") && reply.number == 0) return placer_find_and_run(RUN);
    if (wrong("idle_dearer_by_one") && reply.number == 0) reply.values[1]++;
    return reply;
}

static placer_reply wrong_find_and_run_panel(RUN_OF)
{
    if (wrong("panel_of_nine_lots") && book_len > 6 && book[5] == 9) return placer_find_and_run(RUN);
    return placer_find_and_run_panel(RUN);
}

static placer_reply wrong_find_order(const uint8_t *book, size_t book_len, uint8_t *order, size_t order_len)
{
    static uint8_t found[PLACER_ORDER_MAX];
    const placer_reply none = {PLACER_NO_ORDER, 0, {0, 0, 0, 0}};
    if (order_len > sizeof found) order_len = sizeof found;
    placer_reply reply = placer_find_order(book, book_len, found, order_len);
    if (reply.number != 0) return reply;
    if (wrong("no_order_of_three_lots") && book[5] == 3) return none;
    memcpy(order, found, reply.values[0]);
    if (wrong("first_pairs_exchanged") && reply.values[0] > 10) memcpy(order + 7, found + 9, 2), memcpy(order + 9, found + 7, 2);
    return reply;
}

static placer_reply wrong_check_order(const uint8_t *book, size_t book_len, const uint8_t *order, size_t order_len)
{
    placer_reply reply = placer_check_order(book, book_len, order, order_len), accepted = {0, 0, {0, 0, 0, 0}};
    if (order_len > 6) accepted.values[0] = order[5] + 256u * order[6];
    return wrong("sum_too_high_accepted") && reply.number == PLACER_CROSS_SUM_TOO_HIGH ? accepted : reply;
}

static placer_stretch wrong_lot_costs(const uint8_t *book, size_t book_len, size_t lot)
{
    placer_stretch stretch = placer_lot_costs(book, book_len, lot);
    if (wrong("stretch_with_its_word") && stretch.len > 0) stretch.start -= 4, stretch.len += 4;
    return stretch;
}

static placer_reply wrong_pair_cost(const uint8_t *book, size_t book_len, size_t lot, size_t call)
{
    if (wrong("call_cut_to_32_bits")) call = (uint32_t)call;
    if (wrong("call_cut_to_48_bits")) call &= (UINT64_C(1) << 48) - 1;
    return placer_pair_cost(book, book_len, lot, call);
}

static placer_reply wrong_read_amounts(const uint8_t *book, size_t book_len, const uint8_t *amounts, size_t amounts_len)
{
    placer_reply reply = placer_read_amounts(book, book_len, amounts, amounts_len);
    return wrong("reserve_not_read") && reply.number == PLACER_RESERVE_EXCEEDS_LOT ? placer_read_book(book, book_len) : reply;
}

#define placer_find_and_run wrong_find_and_run
#define placer_find_and_run_idle wrong_find_and_run_idle
#define placer_find_and_run_panel wrong_find_and_run_panel
#define placer_find_order wrong_find_order
#define placer_check_order wrong_check_order
#define placer_lot_costs wrong_lot_costs
#define placer_pair_cost wrong_pair_cost
#define placer_read_amounts wrong_read_amounts
#include "fuzz_call.c"
