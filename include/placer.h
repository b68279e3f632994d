/* placer.h: place bond lots on margin calls by an order of the eligible pairs, at the least cost where everything can be met.
 *
 * This header is the manual of the C library (libplacer.a, libplacer.so; x86-64 Linux only; C99 or C++11). All that a caller has to know
 * stands here; docs/FORMATS.md of the sources has the files byte by byte. placer_files.h makes the files from arrays, and takes them apart.
 *
 * A lot is a source of whole units, a call wants whole units. A book says for each lot and call whether the pair is eligible and what a
 * unit costs on it. An order lists the eligible pairs; running it gives each pair in turn the smaller of what its lot has left and what
 * its call still lacks. By an order that passes the check a run meets every call whenever some allocation does; where some allocation
 * meets everything, so does the run, and none that does costs less. Both hold whatever the amounts: so an order is agreed once and used
 * daily. With stock to spare it matters for the cost which units stay in the box: placer_find_and_run_idle makes the cheapest choice.
 *
 *     uint32_t flow[PLACER_FLOW_MAX];
 *     placer_reply r = placer_find_and_run(book, book_len, amounts, amounts_len, flow, PLACER_FLOW_MAX);
 *     if (r.number != PLACER_ACCEPTED) fprintf(stderr, "refused: %s\n", placer_sentence(r.number));
 *     else printf("%s: %llu units, cost %lld\n", r.verdict == PLACER_SHORT ? "a call lacks units" : "every call is met",
 *                 (unsigned long long)r.values[0], (long long)(int64_t)r.values[1]);
 *
 * Files are byte strings that the caller holds: a pointer and a length. They open with a mark of three letters, the version in two bytes,
 * and two bytes of counts; integers are little-endian, the lowest byte first.
 *   book     "CLB" 1 0 n m; for each of n lots a 32-bit word, bit j set if call j is eligible, and a 32-bit cost for each set bit,
 *            lowest bit first. n and m are 0 to 32, a cost is 0 to 1,000,000 hundredths of a cent per unit. Version 2, "CLB" 2 0 n m,
 *            differs in the costs: they are signed, two's complement, -1,000,000 to 1,000,000, below 0 where a rebate is paid.
 *   amounts  "CLA" 1 0 n m; n lot amounts and m call amounts, 32 bits each, 0 to 1,000,000,000 units. Version 2, "CLA" 2 0 n m, has n
 *            reserves after them, 32 bits each: what the desk holds back of each lot, at most what the lot holds. In every run, and for
 *            idle stock too, a lot's amount is what it holds less its reserve: reserved units are not placed, and do not count as left.
 *   order    "CLO" 1 0, a 16-bit count of pairs; for each pair a byte for its lot and one for its call. Lots and calls count from 0.
 * A desk may have no lots yet, or no calls: n or m is then 0. Without lots the book is its first 7 bytes, without calls every word is 0.
 * The order has no pairs, 7 bytes, and a flow of 0 entries is enough. A run places 0 units at cost 0: Full if all amounts are 0 or there
 * are none, else Short without lots, Covered without calls.
 *
 * What holds for every call
 *   - Any bytes and any lengths may be handed over. The call returns; it accepts, or refuses by a number from 1 to 21.
 *   - What is passed by `const` pointer is read and never written. A buffer is written only where the call accepts; a refusal leaves it
 *     as it was. Nothing outside the stated lengths is read or written, and no pointer is kept.
 *   - A pointer must not be null, even where its length is 0, as for a flow of 0 entries; any other pointer may then be handed over. A
 *     buffer must not overlap another argument.
 *   - No heap, no state, no input or output, no signal, no locale: calls on separate buffers may run at once in any number of threads.
 *   - Stack: at most PLACER_STACK bytes; placer_find_and_run_panel at most PLACER_PANEL_STACK.
 *   - Several refusals can apply; the one reported is the first in this sequence: the book's (1, 2, 3, 4, 20; then lot by lot 6, 5, 6, 7;
 *     then 8), the order's (1, 2, 3, 6, 8; at each pair 9, 10; then 14; then 11 or 12), the amounts' (1, 2, 3, 15, 6, 8, 16, 21), 18,
 *     19, then 17, and 13 last. 18 and 19 come from placer_find_and_run_idle alone, 20 from placer_find_and_run_panel alone.
 *
 * Proved: every reply and every buffer, for all inputs, by the contracts of crates/placer_c; that the order found is good, and that one is
 * found whenever a good one exists. Trusted: the Rattle checker and compiler, this header, the C compiler and linker. */
#ifndef PLACER_H
#define PLACER_H

#include <stddef.h>
#include <stdint.h>

#ifdef __cplusplus
extern "C" {
#endif

#define PLACER_VERSION_MAJOR 1
#define PLACER_VERSION_MINOR 0
#define PLACER_VERSION_PATCH 0
#define PLACER_VERSION "1.0.0" /* of the library; the files have versions of their own */
#define PLACER_VERSION_NUMBER (PLACER_VERSION_MAJOR * 1000000 + PLACER_VERSION_MINOR * 1000 + PLACER_VERSION_PATCH)

#define PLACER_LOTS_MAX 32
#define PLACER_CALLS_MAX 32
#define PLACER_PAIRS_MAX 1024
#define PLACER_COST_MAX 1000000      /* hundredths of a cent per unit */
#define PLACER_COST_MIN (-1000000)   /* in a book of version 2; in one of version 1 it is 0 */
#define PLACER_AMOUNT_MAX 1000000000 /* units */
#define PLACER_BOOK_MAX 4231         /* bytes of the largest book, order and amounts file */
#define PLACER_ORDER_MAX 2055
#define PLACER_AMOUNTS_MAX 391   /* of version 2; of version 1 it is 263 */
#define PLACER_FLOW_MAX 1024     /* entries: always enough */
#define PLACER_STACK 20480       /* bytes: no call takes more (measured; the finder takes most) */
#define PLACER_PANEL_SIDE_MAX 8  /* lots, and calls, of placer_find_and_run_panel */
#define PLACER_PANEL_FLOW_MAX 64 /* entries: always enough for it */
#define PLACER_PANEL_STACK 8192  /* bytes: it takes no more (measured; most where the loader binds memcpy in the first call) */

/* The refusals, by their numbers. In brackets the values that stand in `values`, from values[0] on. Lots, calls and places in the order
 * count from 0; of 10 it is the pair's second place. 16 is about amounts as the file holds them; 21 is tested once none is above.
 *
 * 4, 5, 7, 13, 19 and 20 are about the book, 9 to 12 and 14 about the order, 15, 16, 18 and 21 about the amounts, and 17 is about the
 * buffer. 1, 2, 3, 6 and 8 do not say which file they are about. After one of these it is told by the files of the call; where that takes
 * no order, the last line is left out:
 *
 *     const char *file = "amounts";
 *     if (placer_read_book(book, book_len).number != PLACER_ACCEPTED) file = "book";
 *     else if (placer_check_order(book, book_len, order, order_len).number != PLACER_ACCEPTED) file = "order"; */
enum placer_number {
    PLACER_ACCEPTED = 0,
    PLACER_UNDER_SEVEN = 1,         /* a file is under 7 bytes */
    PLACER_MARK_DIFFERS = 2,        /* a file does not open with its mark */
    PLACER_VERSION_NOT_ONE = 3,     /* a file's version is not 1 (of a book or amounts: neither 1 nor 2) */
    PLACER_COUNT_OUTSIDE = 4,       /* the book's count of lots or calls is above 32 */
    PLACER_BIT_OUTSIDE = 5,         /* an eligibility bit is set for a call that the book does not have [lot] */
    PLACER_ENDS_EARLY = 6,          /* a file ends before its last field */
    PLACER_COST_TOO_HIGH = 7,       /* a cost is above 1,000,000 (in a book of version 2: or below -1,000,000) [lot, call] */
    PLACER_BYTES_AFTER = 8,         /* a file has bytes after its last field */
    PLACER_PAIR_NOT_ELIGIBLE = 9,   /* a pair of the order is not in the book or not eligible [place] */
    PLACER_PAIR_MET_BEFORE = 10,    /* a pair of the order was met before [place] */
    PLACER_CROSS_NOT_ELIGIBLE = 11, /* the order has (i, j) before (i, l) and (k, j), and (k, l) is not eligible [i, j, k, l] */
    PLACER_CROSS_SUM_TOO_HIGH = 12, /* the order has (i, j) before (i, l) and (k, j), which cost less than (i, j) and (k, l) [i, j, k, l] */
    PLACER_NO_ORDER = 13,           /* no order of this book (with an idle call: of the enlarged book) is good for all amounts */
    PLACER_PAIR_MISSING = 14,       /* an eligible pair is missing from the order */
    PLACER_COUNTS_DIFFER = 15,      /* the amounts' count of lots or calls differs from the book's */
    PLACER_AMOUNT_TOO_HIGH = 16,    /* an amount of a lot or call is above 1,000,000,000 */
    PLACER_BUFFER_TOO_SHORT = 17,   /* the buffer lent is too short */
    PLACER_CALLS_EXCEED_LOTS = 18,  /* the calls' total exceeds the lots' total, less their reserves */
    PLACER_NO_IDLE_CALL = 19,       /* the book already has 32 calls, and the idle call would be one more */
    PLACER_ABOVE_EIGHT = 20,        /* the book's count of lots or calls is above 8, the most that a ticket panel shows */
    PLACER_RESERVE_EXCEEDS_LOT = 21 /* a reserve is above what its lot holds */
};

/* The verdict of a run. Whatever the verdict, no allocation places more units. Least cost is promised for Full, and by
 * placer_find_and_run_idle for Covered as well. */
enum placer_verdict {
    PLACER_NO_RUN = 0, /* the call refused, or is not a run */
    PLACER_FULL = 1,   /* nothing is left in any lot or call; no allocation that meets everything costs less */
    PLACER_SHORT = 2,  /* a call lacks units; no allocation meets every call */
    PLACER_COVERED = 3 /* every call is met and some lot has units left */
};

/* What a call answers. `number` is PLACER_ACCEPTED or a refusal's number. `verdict` is PLACER_FULL, PLACER_COVERED or PLACER_SHORT where
 * a run is accepted, else PLACER_NO_RUN. `values`: as each call says where it accepts, as the list of refusals says where it refuses; the
 * others 0. A cost, of a run or of a pair, is a 64-bit two's complement number, (int64_t)r.values[1]; it is below 0 only with a book of
 * version 2. All other values are unsigned. */
typedef struct {
    uint32_t number;
    uint32_t verdict;
    uint64_t values[4];
} placer_reply;

/* Bytes `start` to `start + len - 1` of the caller's book. */
typedef struct {
    size_t start;
    size_t len;
} placer_stretch;

/* placer_find_and_run: find an order and run it.
 *   book, amounts    read
 *   flow, flow_len   written where the call accepts: the units of lot i and call j at flow[i * m + j], 0 where the pair is not eligible;
 *                    entries from n * m on are kept. flow_len counts entries; below n * m is 17.
 *   accepted         values: units, cost. Full exactly when some allocation meets every lot and call; then no other costs less.
 *                    Covered or Full exactly when some allocation meets every call, whatever the totals. Full, Covered or Short,
 *                    no allocation places more units.
 *   refused          the book's numbers, the amounts', 17, 13 */
placer_reply placer_find_and_run(const uint8_t *book, size_t book_len, const uint8_t *amounts, size_t amounts_len, uint32_t *flow,
                                 size_t flow_len);

/* placer_find_and_run_idle: find and run with an idle call, which takes what stays in the box: with stock to spare, the cheapest choice of
 * what to leave. The book is enlarged by this call, the last: every lot is eligible for it at cost 0, and its amount is the lots' total
 * less the calls' total. An order is found for the enlarged book. With costs 3 5 / 1 2, lots of 3 and 4 units and calls for 3 and 2,
 * 2 units of lot 0 stay idle and the calls cost 9 (flow 1 0 / 2 2); by placer_find_and_run they cost 13 (flow 3 0 / 0 2).
 *   book, amounts    read
 *   flow, flow_len   as for placer_find_and_run, by the book's own m: the idle call's units are not written, they count as left
 *   accepted         values: units, cost, of the book's own calls. Covered or Full exactly when some allocation meets every call, and
 *                    then none that does costs less: Full where the totals are equal, Covered where they differ.
 *   refused          the book's numbers, the amounts', 18, 19, 17, 13, which is about the enlarged book: it may have no order where the
 *                    book has one */
placer_reply placer_find_and_run_idle(const uint8_t *book, size_t book_len, const uint8_t *amounts, size_t amounts_len, uint32_t *flow,
                                      size_t flow_len);

/* placer_find_and_run_panel: find and run for a ticket panel, which shows at most 8 lots and 8 calls. Within eight by eight it replies and
 * writes as placer_find_and_run does, on all inputs. Its work state is for 64 pairs instead of 1,024, so that it takes less stack.
 *   book, amounts    read
 *   flow, flow_len   as for placer_find_and_run; PLACER_PANEL_FLOW_MAX entries are always enough
 *   accepted         as for placer_find_and_run
 *   refused          as for placer_find_and_run, and 20 directly after 4: with n or m above 8, whatever follows the book's first 7 bytes */
placer_reply placer_find_and_run_panel(const uint8_t *book, size_t book_len, const uint8_t *amounts, size_t amounts_len, uint32_t *flow,
                                       size_t flow_len);

/* placer_find_order: find an order, to be agreed, stored and run later.
 *   book               read
 *   order, order_len   written where the call accepts: an order file of 7 bytes and two a pair; later bytes are kept. Shorter is 17.
 *                      PLACER_ORDER_MAX bytes are always enough.
 *   accepted           values: the length of the file. Hand over this length, not the buffer's, when the order is checked or run.
 *   refused            the book's numbers, 17, 13: no order passes the check */
placer_reply placer_find_order(const uint8_t *book, size_t book_len, uint8_t *order, size_t order_len);

/* placer_run_order: check an order and run it.
 *   book, order, amounts   read
 *   flow, flow_len         as for placer_find_and_run
 *   accepted               as for placer_find_and_run; units and cost are the sums over the flow written
 *   refused                the book's numbers, the order's, the amounts', 17 */
placer_reply placer_run_order(const uint8_t *book, size_t book_len, const uint8_t *order, size_t order_len, const uint8_t *amounts,
                              size_t amounts_len, uint32_t *flow, size_t flow_len);

/* placer_check_order: whether an order is good for this book, whatever the amounts.
 *   book, order   read
 *   accepted      values: the count of pairs. Each eligible pair stands in the order once, and for all lots i, k and calls j, l where
 *                 (i, j) precedes (i, l) and (k, j): (k, l) is eligible and cost(i, j) + cost(k, l) <= cost(i, l) + cost(k, j).
 *   refused       the book's numbers, the order's: 11 where (k, l) is not eligible, 12 where cost(i, j) + cost(k, l) > cost(i, l) +
 *                 cost(k, j); of several failures 11 and 12, the first by place of (i, j), then k, then l */
placer_reply placer_check_order(const uint8_t *book, size_t book_len, const uint8_t *order, size_t order_len);

/* placer_read_book: whether a book is readable.
 *   book       read
 *   accepted   values: n, m
 *   refused    the book's numbers */
placer_reply placer_read_book(const uint8_t *book, size_t book_len);

/* placer_read_amounts: whether amounts are readable and fit their book.
 *   book, amounts   read
 *   accepted        values: n, m
 *   refused         the book's numbers, the amounts' */
placer_reply placer_read_amounts(const uint8_t *book, size_t book_len, const uint8_t *amounts, size_t amounts_len);

/* placer_lot_costs: where a lot's costs stand in the book, 32 bits each, in the sequence of the lot's eligible calls; signed in a book of
 * version 2 (its byte 3).
 *   book      read; nothing is copied
 *   lot       any number
 *   returns   the stretch; 0, 0 where it is empty: the book is refused, the lot is n or more, or no call is eligible for it */
placer_stretch placer_lot_costs(const uint8_t *book, size_t book_len, size_t lot);

/* placer_pair_cost: what a unit costs on one pair.
 *   book        read
 *   lot, call   any numbers
 *   accepted    values: 1 and the cost where the pair is eligible; 0 and 0 where it is not, the lot is n or more, or the call m or more
 *   refused     the book's numbers */
placer_reply placer_pair_cost(const uint8_t *book, size_t book_len, size_t lot, size_t call);

/* placer_version: the version of the library that is linked or loaded, in one number; this header's is PLACER_VERSION_NUMBER. They fit
 * where the major versions are equal and the library's minor version is not below the header's.
 *   returns   1,000,000 * major + 1,000 * minor + patch */
uint32_t placer_version(void);

/* placer_sentence: a refusal in English; of another number, "not a number of this library". The text is constant. */
static inline const char *placer_sentence(uint32_t number)
{
    static const char *const sentences[] = {
        "accepted",
        "a file is under 7 bytes",
        "a file does not open with its mark",
        "a file's version is not 1 (of a book or amounts: neither 1 nor 2)",
        "the book's count of lots or calls is above 32",
        "an eligibility bit is set for a call that the book does not have",
        "a file ends before its last field",
        "a cost is above 1,000,000 (in a book of version 2: or below -1,000,000)",
        "a file has bytes after its last field",
        "a pair of the order is not in the book or not eligible",
        "a pair of the order was met before",
        "the order has (i, j) before (i, l) and (k, j), and (k, l) is not eligible",
        "the order has (i, j) before (i, l) and (k, j), which cost less than (i, j) and (k, l)",
        "no order of this book (with an idle call: of the enlarged book) is good for all amounts",
        "an eligible pair is missing from the order",
        "the amounts' count of lots or calls differs from the book's",
        "an amount of a lot or call is above 1,000,000,000",
        "the buffer lent is too short",
        "the calls' total exceeds the lots' total, less their reserves",
        "the book already has 32 calls, and the idle call would be one more",
        "the book's count of lots or calls is above 8, the most that a ticket panel shows",
        "a reserve is above what its lot holds"};
    return number < sizeof sentences / sizeof sentences[0] ? sentences[number] : "not a number of this library";
}

#ifdef __cplusplus
}
#endif

#endif
