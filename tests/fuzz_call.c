/* One call of the C boundary for tests/fuzz.c: on memory between inaccessible pages, twice, with other earlier contents of the buffers. */
#define _GNU_SOURCE
#include "fuzz.h"

#include <stdio.h>
#include <stdlib.h>
#include <string.h>
#include <sys/mman.h>

enum { PAGE = 4096, ROOM = INPUT_MAX + PAGE, STRIP = 64, AROUND = 0xa5 };

/* Numbers as bits: each file's, and those that a call can give. */
#define BIT(number) (UINT32_C(1) << (number))
#define OF_BOOK (BIT(1) | BIT(2) | BIT(3) | BIT(4) | BIT(5) | BIT(6) | BIT(7) | BIT(8))
#define OF_ORDER (BIT(1) | BIT(2) | BIT(3) | BIT(6) | BIT(8) | BIT(9) | BIT(10) | BIT(11) | BIT(12) | BIT(14))
#define OF_AMOUNTS (BIT(1) | BIT(2) | BIT(3) | BIT(6) | BIT(8) | BIT(15) | BIT(16) | BIT(21))
#define OF_FINDING (OF_BOOK | OF_AMOUNTS | BIT(17) | BIT(13))

#define WRITES_FILE "writes into a file"

/* Each call: its name, its numbers, and how many values it gives where it accepts. */
const char *const fuzz_names[ENTRIES] = {"read_book", "lot_costs",  "pair_cost",    "read_amounts",      "check_order",
                                         "run_order", "find_order", "find_and_run", "find_and_run_idle", "find_and_run_panel"};
static const uint32_t can_give[ENTRIES] = {OF_BOOK,
                                           0,
                                           OF_BOOK,
                                           OF_BOOK | OF_AMOUNTS,
                                           OF_BOOK | OF_ORDER,
                                           OF_BOOK | OF_ORDER | OF_AMOUNTS | BIT(17),
                                           OF_BOOK | BIT(17) | BIT(13),
                                           OF_FINDING,
                                           OF_FINDING | BIT(18) | BIT(19),
                                           OF_FINDING | BIT(20)};
static const size_t values_accepted[ENTRIES] = {2, 2, 2, 2, 1, 2, 1, 2, 2, 2};
static const size_t values_refused[NUMBERS] = {0, 0, 0, 0, 0, 1, 0, 2, 0, 1, 1, 4, 4, 0, 0, 0, 0, 0, 0, 0, 0, 0};

struct trial on;
uint64_t fuzz_numbers[ENTRIES][NUMBERS], fuzz_verdicts[VERDICTS];
static enum entry last;
static placer_reply reply;

#ifndef PLAIN_DRIVER
/* libFuzzer keeps an input that raises one of these: the library itself is not instrumented. */
__attribute__((section("__libfuzzer_extra_counters"))) static uint8_t counters[ENTRIES][NUMBERS + VERDICTS];
#endif

static void show(const char *name, const struct lent *file)
{
    fprintf(stderr, "%s, %zu bytes:", name, file->len);
    for (size_t k = 0; k < file->len; k++) fprintf(stderr, "%s%02x", k % 32 == 0 ? "\n  " : " ", file->bytes[k]);
    fputc('\n', stderr);
}

void fuzz_show(void)
{
    fprintf(stderr, "last call: %s; lot %zu, call %zu, flow of %zu entries, order buffer of %zu bytes\nlast reply: %u, verdict %u, values",
            fuzz_names[last], on.lot, on.call, on.flow.len / 4, on.buffer.len, (unsigned)reply.number, (unsigned)reply.verdict);
    for (size_t k = 0; k < 4; k++) fprintf(stderr, " %lld", (long long)reply.values[k]);
    fputc('\n', stderr);
    show("book", &on.book), show("order", &on.order), show("amounts", &on.amounts);
}

void holds(int so, const char *what)
{
    if (so) return;
    fprintf(stderr, "fuzz: FAILED: %s %s\n", fuzz_names[last], what);
    fuzz_show();
    abort();
}

void replied(placer_reply expected, const char *what)
{
    holds(reply.number == expected.number && reply.verdict == expected.verdict, what);
    holds(memcmp(reply.values, expected.values, sizeof reply.values) == 0, what);
}

uint64_t number_at(const uint8_t *at, size_t bytes)
{
    uint64_t number = 0;
    while (bytes-- > 0) number = number << 8 | at[bytes];
    return number;
}

void lend(struct lent *lent, const uint8_t *bytes, size_t len)
{
    if (lent->room == NULL) {
        uint8_t *start = (uint8_t *)mmap(NULL, ROOM + 2 * PAGE, PROT_NONE, MAP_PRIVATE | MAP_ANONYMOUS, -1, 0);
        if (start == MAP_FAILED || mprotect(start + PAGE, ROOM, PROT_READ | PROT_WRITE) != 0) perror("fuzz: memory"), exit(2);
        lent->room = start + PAGE;
    }
    lent->at = lent->high ? lent->room + ROOM - len : lent->room;
    lent->strip = lent->high ? lent->at - STRIP : lent->at + len;
    lent->bytes = bytes, lent->len = len;
    memset(lent->strip, AROUND, STRIP);
    if (bytes != NULL) memcpy(lent->at, bytes, len);
}

/* Nothing about what was lent is written; what was there before a call stays from byte `written` on. */
static void kept(const struct lent *lent, const uint8_t *before, size_t written, const char *what)
{
    int around = 1;
    for (size_t k = 0; k < STRIP; k++) around &= lent->strip[k] == AROUND;
    holds(around, "writes outside what is lent");
    holds(memcmp(lent->at + written, before + written, lent->len - written) == 0, what);
}

static placer_reply lot_costs(void)
{
    placer_stretch stretch = placer_lot_costs(on.book.at, on.book.len, on.lot);
    placer_reply as_reply = {0, 0, {stretch.start, stretch.len, 0, 0}};
    return as_reply;
}

static placer_reply called(void)
{
    const uint8_t *book = on.book.at, *order = on.order.at, *amounts = on.amounts.at;
    size_t book_len = on.book.len, order_len = on.order.len, amounts_len = on.amounts.len, flow_len = on.flow.len / 4;
    uint32_t *flow = (uint32_t *)(void *)on.flow.at;
    switch (last) {
    case READ_BOOK: return placer_read_book(book, book_len);
    case LOT_COSTS: return lot_costs();
    case PAIR_COST: return placer_pair_cost(book, book_len, on.lot, on.call);
    case READ_AMOUNTS: return placer_read_amounts(book, book_len, amounts, amounts_len);
    case CHECK_ORDER: return placer_check_order(book, book_len, order, order_len);
    case RUN_ORDER: return placer_run_order(book, book_len, order, order_len, amounts, amounts_len, flow, flow_len);
    case FIND_ORDER: return placer_find_order(book, book_len, on.buffer.at, on.buffer.len);
    case FIND_AND_RUN: return placer_find_and_run(book, book_len, amounts, amounts_len, flow, flow_len);
    case FIND_AND_RUN_IDLE: return placer_find_and_run_idle(book, book_len, amounts, amounts_len, flow, flow_len);
    default: return placer_find_and_run_panel(book, book_len, amounts, amounts_len, flow, flow_len);
    }
}

int is_run(enum entry entry) { return entry == RUN_ORDER || entry >= FIND_AND_RUN; }

/* The reply has a number and a verdict that this call can give, values in range, and no other values. */
static void formed(void)
{
    holds(reply.number < NUMBERS, "gives a number above 21");
    holds(reply.number == 0 || (can_give[last] >> reply.number & 1), "gives a number that is none of its own");
    int ran = reply.number == 0 && is_run(last);
    holds(ran ? reply.verdict > 0 && reply.verdict < VERDICTS : reply.verdict == 0, "gives a verdict that is none of its own");
    size_t values = reply.number == 0 ? values_accepted[last] : values_refused[reply.number];
    for (size_t k = values; k < 4; k++) holds(reply.values[k] == 0, "gives a value that is not used");
    if (reply.number == PLACER_PAIR_NOT_ELIGIBLE || reply.number == PLACER_PAIR_MET_BEFORE)
        holds(reply.values[0] < number_at(on.order.bytes + 5, 2), "gives a place outside the order");
    else if (reply.number != 0)
        for (size_t k = 0; k < values; k++) holds(reply.values[k] < on.book.bytes[5 + k % 2], "gives a lot or a call outside the book");
}

/* One call, where this stood in the buffer before; how many bytes of it the call says it has written. */
static size_t once(const struct lent *lent, const uint8_t *before)
{
    size_t written = 0;
    if (lent != NULL) memcpy(lent->at, before, lent->len);
    reply = called();
    formed();
    if (lent != NULL) {
        if (reply.number == 0) written = last == FIND_ORDER ? reply.values[0] : (size_t)4 * on.book.bytes[5] * on.book.bytes[6];
        holds(written <= lent->len, "accepts a buffer that is too short");
        kept(lent, before, written, "writes what it has to keep");
    }
    kept(&on.book, on.book.bytes, 0, WRITES_FILE), kept(&on.order, on.order.bytes, 0, WRITES_FILE);
    kept(&on.amounts, on.amounts.bytes, 0, WRITES_FILE);
    return written;
}

placer_reply ask(enum entry entry)
{
    static uint8_t before[2][ROOM], first_written[4 * PLACER_FLOW_MAX];
    const struct lent *lent = entry == FIND_ORDER ? &on.buffer : is_run(entry) ? &on.flow : NULL;
    if (before[1][0] == 0) memset(before[0], 0x5a, ROOM), memset(before[1], 0xc3, ROOM);
    last = entry;
    size_t written = once(lent, before[0]);
    placer_reply first = reply;
    holds(written <= sizeof first_written, "accepts a book that is too large");
    if (lent != NULL) memcpy(first_written, lent->at, written);
    once(lent, before[1]);
    replied(first, "replies otherwise when called again");
    if (lent != NULL) holds(memcmp(first_written, lent->at, written) == 0, "writes otherwise when called again");
    fuzz_numbers[entry][first.number]++, fuzz_verdicts[first.verdict]++;
#ifndef PLAIN_DRIVER
    counters[entry][first.number]++, counters[entry][NUMBERS + first.verdict]++;
#endif
    return first;
}
