/* Places example F1 of document 01: two lots of 5 and 4 units, two calls of 3 and 6, costs 1 2 / 3 5. It finds an order, as a broker
 * would once a quarter, and runs it, as each day. With the library installed:
 *
 *     cc place.c -lplacer -o place_c && ./place_c
 *
 *     order: 01 00 10 11
 *     FULL 9 24
 *     0 1 5
 *     1 0 3
 *     1 1 1 */
#include <inttypes.h>
#include <stdio.h>

#include "placer_files.h"

enum { LOTS = 2, CALLS = 2, PAIRS = LOTS * CALLS };

static const int32_t costs[PAIRS] = {1, 2, 3, 5}; /* lot by lot; PLACER_NOT_ELIGIBLE where a pair is not eligible */
static const uint32_t lots[LOTS] = {5, 4}, calls[CALLS] = {3, 6};

static int refused(placer_reply reply)
{
    if (reply.number == PLACER_ACCEPTED) return 0;
    fprintf(stderr, "refused by %" PRIu32 ": %s\n", reply.number, placer_sentence(reply.number));
    return 1;
}

static const char *word(uint32_t verdict)
{
    if (verdict == PLACER_FULL) return "FULL";
    return verdict == PLACER_COVERED ? "COVERED" : "SHORT";
}

int main(void)
{
    uint8_t book[PLACER_BOOK_MAX], order[PLACER_ORDER_MAX], amounts[PLACER_AMOUNTS_MAX];
    size_t book_len = placer_encode_book(costs, LOTS, CALLS, book, sizeof book);
    size_t amounts_len = placer_encode_amounts(lots, LOTS, calls, CALLS, NULL, amounts, sizeof amounts);

    placer_reply found = placer_find_order(book, book_len, order, sizeof order);
    if (refused(found)) return 2;
    size_t order_len = (size_t)found.values[0];
    placer_pair pairs[PAIRS];
    placer_reply listed = placer_decode_order(order, order_len, pairs, PAIRS);
    if (refused(listed)) return 2;
    printf("order:");
    for (size_t place = 0; place < listed.values[0]; place++) printf(" %d%d", pairs[place].lot, pairs[place].call);
    printf("\n");

    uint32_t flow[PAIRS];
    placer_reply placed = placer_run_order(book, book_len, order, order_len, amounts, amounts_len, flow, PAIRS);
    if (refused(placed)) return 2;
    printf("%s %" PRIu64 " %" PRId64 "\n", word(placed.verdict), placed.values[0], (int64_t)placed.values[1]); /* a cost is signed */
    for (int lot = 0; lot < LOTS; lot++)
        for (int call = 0; call < CALLS; call++) {
            uint32_t units = flow[lot * CALLS + call];
            if (units > 0) printf("%d %d %" PRIu32 "\n", lot, call, units);
        }
    return placed.verdict == PLACER_SHORT ? 1 : 0;
}
