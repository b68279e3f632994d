/* Fuzzing of the C boundary: tries one input, which may be any bytes. Every entry point of include/placer.h is called, and each reply, each
 * buffer and the calls among each other are held to what the header says. There is no reference here; tests/compare.rs has one.
 *
 * Without any tool but the C compiler, for so many seconds and from a seed (`tests/run --fuzz SECONDS --seed SEED` does this):
 *     cc -std=c99 -O1 -DPLAIN_DRIVER -Iinclude tests/fuzz*.c build/libplacer.a -o build/fuzz
 *     build/fuzz SECONDS SEED
 * With libFuzzer, which mixes its own inputs with those of fuzz_inputs.c (cargo-fuzz users link the same function):
 *     clang -g -O1 -fsanitize=fuzzer,address -Iinclude tests/fuzz*.c build/libplacer.a -o build/libfuzzer
 *     build/libfuzzer -max_len=16384 -max_total_time=SECONDS */
#include "fuzz.h"

#include <string.h>

#define FIRST "does not give the first refusal that applies"

/* The order found; what find_and_run wrote, and what it wrote with the idle call in the files. */
static uint8_t found_order[PLACER_ORDER_MAX], plain_flow[4 * PLACER_FLOW_MAX], idle_flow[4 * PLACER_FLOW_MAX];

static placer_reply refused(uint32_t number)
{
    placer_reply reply = {number, 0, {0, 0, 0, 0}};
    return reply;
}

static placer_reply first_of(placer_reply first, placer_reply second) { return first.number != 0 ? first : second; }

static placer_reply refused_if(int so, uint32_t number) { return refused(so ? number : 0); }

/* A run that has to give this refusal, or to accept where it is none. */
static placer_reply run(enum entry entry, placer_reply refusal)
{
    placer_reply run = ask(entry);
    if (refusal.number != 0) replied(refusal, FIRST);
    else holds(run.number == 0, "refuses without cause"), placed(entry, run);
    return run;
}

/* Finds with a buffer that is always long enough: an order, or 13. */
static placer_reply find(void)
{
    lend(&on.buffer, NULL, PLACER_ORDER_MAX);
    placer_reply found = ask(FIND_ORDER);
    holds(found.number == 0 || found.number == PLACER_NO_ORDER, "refuses without cause");
    return found;
}

/* Finds with a buffer that is long enough and with the input's: the same, or 17. What is found passes the check. */
static placer_reply try_finding(placer_reply check)
{
    struct lent own = on.order;
    size_t own_len = on.buffer.len, needed = 7 + 2 * known.pairs;
    placer_reply found = find(), passes = {0, 0, {known.pairs, 0, 0, 0}};
    holds(found.number == 0 || check.number != 0, "finds none where there is an order");
    if (found.number == 0) {
        holds(found.values[0] == needed, "gives another length than the order's");
        memcpy(found_order, on.buffer.at, needed);
        lend(&on.order, found_order, needed);
        ask(CHECK_ORDER), replied(passes, "does not accept the order found");
        lend(&on.order, own.bytes, own.len);
    }
    lend(&on.buffer, NULL, own_len);
    placer_reply again = ask(FIND_ORDER);
    replied(first_of(refused_if(own_len < needed, PLACER_BUFFER_TOO_SHORT), found), FIRST);
    holds(again.number != 0 || memcmp(on.buffer.at, found_order, needed) == 0, "finds another order for another buffer");
    return found;
}

/* A run that has to reply and write as find_and_run did. */
static void run_alike(enum entry entry, placer_reply refusal, placer_reply plain)
{
    if (run(entry, refusal).number != 0) return;
    replied(plain, "replies otherwise than find_and_run");
    holds(memcmp(on.flow.at, plain_flow, 4 * known.n * known.m) == 0, "writes otherwise than find_and_run");
}

/* Finds with the idle call in the files; also runs, where no more is to spare than an amount can be. */
static placer_reply find_enlarged(void)
{
    struct lent book = on.book, amounts = on.amounts, flow = on.flow;
    enlarge();
    placer_reply found = find();
    if (found.number == 0 && known.to_spare <= PLACER_AMOUNT_MAX) {
        holds(ask(FIND_AND_RUN).number == 0, "refuses without cause");
        for (size_t k = 0; k < known.n * known.m; k++) memcpy(idle_flow + 4 * k, on.flow.at + 4 * (k + k / known.m), 4);
    }
    lend(&on.book, book.bytes, book.len), lend(&on.amounts, amounts.bytes, amounts.len), lend(&on.flow, NULL, flow.len);
    return found;
}

/* The run with an idle call writes as with that call in the files. It meets every call exactly when find_and_run does, and then it costs
 * no more. */
static void try_idle(placer_reply read, placer_reply too_short, placer_reply plain)
{
    placer_reply refusal = first_of(read, refused_if(known.to_spare < 0, PLACER_CALLS_EXCEED_LOTS));
    refusal = first_of(refusal, first_of(refused_if(known.m == PLACER_CALLS_MAX, PLACER_NO_IDLE_CALL), too_short));
    if (refusal.number == 0) refusal = find_enlarged();
    placer_reply idle = run(FIND_AND_RUN_IDLE, refusal);
    if (idle.number != 0) return;
    int alike = known.to_spare > PLACER_AMOUNT_MAX || memcmp(on.flow.at, idle_flow, 4 * known.n * known.m) == 0;
    holds(alike, "writes otherwise than find_and_run with the idle call in the files");
    holds(plain.number == 0, "accepts where find_and_run does not");
    holds((idle.verdict == PLACER_SHORT) == (plain.verdict == PLACER_SHORT), "does not meet the calls as find_and_run does");
    if (idle.verdict == PLACER_SHORT) return;
    holds(idle.values[0] == plain.values[0], "places other units than find_and_run");
    holds((int64_t)idle.values[1] <= (int64_t)plain.values[1], "costs more than find_and_run");
}

/* All that takes an order or amounts, with a readable book. */
static void try_book(placer_reply counts)
{
    placer_reply check = ask(CHECK_ORDER);
    checked(check);
    placer_reply read = ask(READ_AMOUNTS);
    if (read.number == 0) replied(counts, "gives other counts than the book's"), learn_amounts();
    placer_reply too_short = refused_if(on.flow.len / 4 < known.n * known.m, PLACER_BUFFER_TOO_SHORT), over = first_of(read, too_short);
    placer_reply found = try_finding(check), given = run(RUN_ORDER, first_of(check, over));
    placer_reply plain = run(FIND_AND_RUN, first_of(over, found));
    if (plain.number == 0) memcpy(plain_flow, on.flow.at, 4 * known.n * known.m);
    if (given.number == 0) {
        holds(plain.verdict == given.verdict && plain.values[0] == given.values[0], "places otherwise than by another good order");
        holds(plain.verdict != PLACER_FULL || plain.values[1] == given.values[1], "meets everything at another cost than a good order");
    }
    int above_8 = known.n > PLACER_PANEL_SIDE_MAX || known.m > PLACER_PANEL_SIDE_MAX;
    run_alike(FIND_AND_RUN_PANEL, first_of(refused_if(above_8, PLACER_ABOVE_EIGHT), plain), plain);
    try_idle(read, too_short, plain);
    if (found.number != 0) return;
    lend(&on.order, found_order, 7 + 2 * known.pairs);
    run_alike(RUN_ORDER, over, plain);
}

/* Every call gives the book's refusal; the ticket panel's gives 20 before what comes after the counts. */
static void try_refused(placer_reply refusal)
{
    for (enum entry entry = PAIR_COST; entry < FIND_AND_RUN_PANEL; entry = (enum entry)(entry + 1))
        ask(entry), replied(refusal, "does not give the book's refusal");
    ask(LOT_COSTS), replied(refused(0), "gives costs of a book that is refused");
    int after_counts = refusal.number > PLACER_COUNT_OUTSIDE;
    int above_8 = after_counts && (on.book.bytes[5] > PLACER_PANEL_SIDE_MAX || on.book.bytes[6] > PLACER_PANEL_SIDE_MAX);
    ask(FIND_AND_RUN_PANEL), replied(above_8 ? refused(PLACER_ABOVE_EIGHT) : refusal, FIRST);
}

/* Cuts the input: lengths that the rest does not have are made shorter, those of buffers are taken to the largest and a little more. */
static void cut(const uint8_t *data, size_t size)
{
    const uint8_t *files = data + HEAD;
    size_t rest = size - HEAD, book_len = number_at(data + AT_BOOK_LEN, 2), order_len = number_at(data + AT_ORDER_LEN, 2);
    if (book_len > rest) book_len = rest;
    if (order_len > rest - book_len) order_len = rest - book_len;
    on.book.high = data[AT_ENDS] & 1, on.order.high = data[AT_ENDS] >> 1 & 1, on.amounts.high = data[AT_ENDS] >> 2 & 1;
    on.buffer.high = data[AT_ENDS] >> 3 & 1, on.flow.high = data[AT_ENDS] >> 4 & 1;
    lend(&on.book, files, book_len);
    lend(&on.order, files + book_len, order_len);
    lend(&on.amounts, files + book_len + order_len, rest - book_len - order_len);
    lend(&on.buffer, NULL, number_at(data + AT_BUFFER_LEN, 2) % (PLACER_ORDER_MAX + 8));
    lend(&on.flow, NULL, 4 * (number_at(data + AT_FLOW_LEN, 2) % (PLACER_FLOW_MAX + 8)));
    on.lot = number_at(data + AT_LOT, 8), on.call = number_at(data + AT_CALL, 8);
}

int LLVMFuzzerTestOneInput(const uint8_t *data, size_t size)
{
    if (size < HEAD || size > INPUT_MAX) return 0;
    cut(data, size);
    placer_reply counts = ask(READ_BOOK);
    holds(placer_version() == PLACER_VERSION_NUMBER, "is of a library of another version than the header's");
    if (counts.number != 0) try_refused(counts);
    else learn_book(counts), try_book(counts);
    return 0;
}
