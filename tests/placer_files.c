/* Tests placer_files.h, and the lines of placer.h that tell which file was refused. Books, orders and amounts of every size from 0 to 32
 * are generated, encoded, held against the library, and decoded; F1's files are known byte by byte; damaged files are decoded as the
 * library reads them; and every buffer that is too short is kept. C99, and C++11 with `-x c++`. */
#include <stdio.h>
#include <string.h>

#include "placer_files.h"

enum { SIDE = 256, ROOM = 300000, KEPT = 0xa5 };

static unsigned long cases, differences;

static void expect(int holds, const char *what, int line)
{
    cases++;
    if (holds) return;
    differences++;
    printf("files: line %d: %s\n", line, what);
}
#define EXPECT(holds) expect(holds, #holds, __LINE__)

static uint32_t generated(uint32_t bound)
{
    static uint64_t state = 1;
    state = state * 6364136223846793005u + 1442695040888963407u;
    return (uint32_t)(state >> 33) % bound;
}

/* Whether bytes `from` to `to` - 1 are as `clear` left them. */
static int kept(const void *buffer, size_t from, size_t to)
{
    const uint8_t *bytes = (const uint8_t *)buffer;
    while (from < to && bytes[from] == KEPT) from++;
    return from == to;
}

static void clear(void *buffer, size_t len) { memset(buffer, KEPT, len); }

static int replies(placer_reply reply, uint32_t number, uint64_t first, uint64_t second, uint64_t third)
{
    return reply.number == number && reply.verdict == PLACER_NO_RUN && reply.values[0] == first && reply.values[1] == second &&
           reply.values[2] == third && reply.values[3] == 0;
}

static int32_t costs[SIDE * SIDE], costs_back[SIDE * SIDE];
static uint32_t lots[SIDE], calls[SIDE], reserves[SIDE], lots_back[SIDE], calls_back[SIDE], reserves_back[SIDE];
static placer_pair pairs[UINT16_MAX + 1], pairs_back[UINT16_MAX + 1];
static uint8_t made[ROOM], other[ROOM];

/* A book of n by m, where `rebates` with a cost below 0: into buffers that are too short, then into one with no byte to spare; its costs as
 * the library tells them; and back, into an array with an entry too few, then into one with none to spare. The others go likewise. */
static void book_of(size_t n, size_t m, int rebates)
{
    size_t eligible = 0, in_bytes = n * m * sizeof costs[0];
    for (size_t k = 0; k < n * m; k++) {
        costs[k] = generated(4) == 0 ? PLACER_NOT_ELIGIBLE : (int32_t)generated(PLACER_COST_MAX + 1) * (rebates && k % 2 ? -1 : 1);
        eligible += costs[k] != PLACER_NOT_ELIGIBLE;
    }
    if (rebates && n * m > 0) eligible += costs[0] == PLACER_NOT_ELIGIBLE, costs[0] = n % 2 ? -1 : PLACER_COST_MIN;
    size_t len = 7 + 4 * (n + eligible);
    clear(made, len + 8), clear(costs_back, in_bytes + 8);
    for (size_t cut = 1; cut <= len; cut += n < 4 ? 1 : 97) EXPECT(placer_encode_book(costs, n, m, made, len - cut) == 0);
    EXPECT(kept(made, 0, len + 8));
    EXPECT(placer_encode_book(costs, n, m, made, len) == len && placer_encode_book(costs, n, m, made, len + 8) == len);
    EXPECT(kept(made, len, len + 8));
    EXPECT(made[3] == (rebates && n * m > 0 ? 2 : 1));
    EXPECT(replies(placer_read_book(made, len), PLACER_ACCEPTED, n, m, 0));
    for (size_t k = 0; k < n * m; k++) {
        placer_reply told = placer_pair_cost(made, len, k / m, k % m);
        int is_eligible = costs[k] != PLACER_NOT_ELIGIBLE;
        EXPECT(told.values[0] == (uint64_t)is_eligible && (int64_t)told.values[1] == (is_eligible ? costs[k] : 0));
    }
    if (n * m > 0) EXPECT(replies(placer_decode_book(made, len, costs_back, n * m - 1), PLACER_BUFFER_TOO_SHORT, 0, 0, 0));
    EXPECT(kept(costs_back, 0, in_bytes + 8));
    EXPECT(replies(placer_decode_book(made, len, costs_back, n * m), PLACER_ACCEPTED, n, m, 0));
    EXPECT(memcmp(costs, costs_back, in_bytes) == 0 && kept(costs_back, in_bytes, in_bytes + 8));
}

/* An order of so many pairs, of any lots and calls. */
static void order_of(size_t count)
{
    size_t len = 7 + 2 * count, in_bytes = count * sizeof pairs[0];
    for (size_t k = 0; k < count; k++) pairs[k].lot = (uint8_t)generated(256), pairs[k].call = (uint8_t)generated(256);
    clear(made, len + 8), clear(pairs_back, in_bytes + 2);
    for (size_t cut = 1; cut <= len; cut += 1 + count / 9) EXPECT(placer_encode_order(pairs, count, made, len - cut) == 0);
    EXPECT(kept(made, 0, len + 8));
    EXPECT(placer_encode_order(pairs, count, made, len) == len && placer_encode_order(pairs, count, made, len + 8) == len);
    EXPECT(kept(made, len, len + 8));
    if (count > 0) EXPECT(replies(placer_decode_order(made, len, pairs_back, count - 1), PLACER_BUFFER_TOO_SHORT, 0, 0, 0));
    EXPECT(kept(pairs_back, 0, in_bytes + 2));
    EXPECT(replies(placer_decode_order(made, len, pairs_back, count), PLACER_ACCEPTED, count, 0, 0));
    EXPECT(memcmp(pairs, pairs_back, in_bytes) == 0 && kept(pairs_back, in_bytes, in_bytes + 2));
}

static placer_reply amounts_back(const uint8_t *bytes, size_t len, size_t lots_len, size_t calls_len, size_t reserves_len)
{
    return placer_decode_amounts(bytes, len, lots_back, lots_len, calls_back, calls_len, reserves_back, reserves_len);
}

static int amounts_kept(size_t n, size_t m)
{
    return kept(lots_back, 4 * n, sizeof lots) && kept(calls_back, 4 * m, sizeof calls) && kept(reserves_back, 4 * n, sizeof reserves);
}

/* Amounts of n by m, of version 2 where `reserved`, with a book of these counts and no eligible pair. */
static void amounts_of(size_t n, size_t m, int reserved)
{
    size_t len = 7 + 4 * (n + m + (reserved ? n : 0));
    const uint32_t *given = reserved ? reserves : NULL;
    for (size_t k = 0; k < SIDE; k++) lots[k] = generated(PLACER_AMOUNT_MAX + 1), calls[k] = generated(PLACER_AMOUNT_MAX + 1);
    for (size_t k = 0; k < SIDE; k++) reserves[k] = reserved ? generated(lots[k] + 1) : 0;
    clear(made, len + 8), clear(lots_back, sizeof lots), clear(calls_back, sizeof calls), clear(reserves_back, sizeof reserves);
    for (size_t cut = 1; cut <= len; cut++) EXPECT(placer_encode_amounts(lots, n, calls, m, given, made, len - cut) == 0);
    EXPECT(kept(made, 0, len + 8));
    EXPECT(placer_encode_amounts(lots, n, calls, m, given, made, len) == len);
    EXPECT(placer_encode_amounts(lots, n, calls, m, given, made, len + 8) == len && kept(made, len, len + 8));
    for (size_t k = 0; k < n * m; k++) costs[k] = PLACER_NOT_ELIGIBLE;
    size_t book_len = placer_encode_book(costs, n, m, other, ROOM);
    EXPECT(n > 32 || m > 32 || replies(placer_read_amounts(other, book_len, made, len), PLACER_ACCEPTED, n, m, 0));
    if (n > 0) EXPECT(replies(amounts_back(made, len, n - 1, m, n), PLACER_BUFFER_TOO_SHORT, 0, 0, 0));
    if (m > 0) EXPECT(replies(amounts_back(made, len, n, m - 1, n), PLACER_BUFFER_TOO_SHORT, 0, 0, 0));
    if (n > 0) EXPECT(replies(amounts_back(made, len, n, m, n - 1), PLACER_BUFFER_TOO_SHORT, 0, 0, 0));
    EXPECT(amounts_kept(0, 0));
    EXPECT(replies(amounts_back(made, len, n, m, n), PLACER_ACCEPTED, n, m, reserved ? 2 : 1));
    EXPECT(memcmp(lots, lots_back, 4 * n) == 0 && memcmp(calls, calls_back, 4 * m) == 0 && memcmp(reserves, reserves_back, 4 * n) == 0);
    EXPECT(amounts_kept(n, m));
}

/* What is encoded and then refused, and what no file can hold. */
static void beyond_the_limits(void)
{
    static const size_t sides[][2] = {{33, 1}, {1, 33}, {255, 255}, {0, 33}, {33, 0}};
    for (size_t k = 0; k < sizeof sides / sizeof sides[0]; k++) {
        size_t n = sides[k][0], m = sides[k][1], len = 7 + 4 * n + 4 * n * m;
        for (size_t at = 0; at < n * m; at++) costs[at] = (int32_t)at;
        EXPECT(placer_encode_book(costs, n, m, made, ROOM) == len && made[5] == n && made[6] == m);
        EXPECT(n == 0 || placer_files_word(made + 7) == (m == 1 ? 1 : m > 0 ? UINT32_MAX : 0));
        EXPECT(n == 0 || m == 0 || placer_files_word(made + len - 4) == n * m - 1);
        EXPECT(replies(placer_decode_book(made, len, costs_back, SIDE * SIDE), PLACER_COUNT_OUTSIDE, 0, 0, 0));
        amounts_of(n, m, 0), amounts_of(n, m, 1);
    }
    clear(made, ROOM);
    EXPECT(placer_encode_book(costs, 256, 0, made, ROOM) == 0 && placer_encode_book(costs, 0, 256, made, ROOM) == 0);
    EXPECT(placer_encode_amounts(lots, 256, calls, 0, NULL, made, ROOM) == 0);
    EXPECT(placer_encode_amounts(lots, 0, calls, 256, reserves, made, ROOM) == 0);
    EXPECT(placer_encode_book(costs, SIZE_MAX, SIZE_MAX, made, ROOM) == 0 && placer_encode_order(pairs, SIZE_MAX, made, ROOM) == 0);
    EXPECT(placer_encode_order(pairs, UINT16_MAX + 1, made, ROOM) == 0 && kept(made, 0, ROOM));
    order_of(UINT16_MAX);

    static const int32_t outside[] = {PLACER_COST_MAX + 1, INT32_MAX, PLACER_COST_MIN - 1, INT32_MIN + 1};
    for (size_t k = 0; k < 4; k++) {
        const int32_t row[] = {PLACER_NOT_ELIGIBLE, outside[k]};
        size_t len = placer_encode_book(row, 1, 2, made, ROOM);
        EXPECT(len == 15 && made[3] == (k < 2 ? 1 : 2));
        EXPECT(replies(placer_decode_book(made, len, costs_back, 2), PLACER_COST_TOO_HIGH, 0, 1, 0));
    }
    static const uint32_t most[] = {UINT32_MAX}, one[] = {1};
    EXPECT(placer_encode_book(costs, 1, 0, other, ROOM) == 11 && placer_encode_amounts(most, 1, one, 0, one, made, ROOM) == 15);
    EXPECT(placer_read_amounts(other, 11, made, 15).number == PLACER_AMOUNT_TOO_HIGH);
    EXPECT(replies(amounts_back(made, 15, 1, 0, 1), PLACER_ACCEPTED, 1, 0, 2) && lots_back[0] == UINT32_MAX && reserves_back[0] == 1);
    EXPECT(placer_encode_amounts(one, 1, one, 0, most, made, ROOM) == 15);
    EXPECT(placer_read_amounts(other, 11, made, 15).number == PLACER_RESERVE_EXCEEDS_LOT);
}

/* Example F1, and its book and amounts of version 2, as docs/FORMATS.md has them; its order is the one that the library finds. */
static const int32_t f1_costs[] = {1, 2, 3, 5}, f1_rebates[] = {1, -2, -3, 5};
static const uint32_t f1_lots[] = {5, 4}, f1_more[] = {7, 4}, f1_calls[] = {3, 6}, f1_reserves[] = {2, 0};
static const placer_pair f1_pairs[] = {{0, 1}, {0, 0}, {1, 0}, {1, 1}};
static const uint8_t f1_book[] = "CLB\1\0\2\2\3\0\0\0\1\0\0\0\2\0\0\0\3\0\0\0\3\0\0\0\5\0\0";
static const uint8_t f1_book_2[] = "CLB\2\0\2\2\3\0\0\0\1\0\0\0\376\377\377\377\3\0\0\0\375\377\377\377\5\0\0";
static const uint8_t f1_order[] = "CLO\1\0\4\0\0\1\0\0\1\0\1\1";
static const uint8_t f1_amounts[] = "CLA\1\0\2\2\5\0\0\0\4\0\0\0\3\0\0\0\6\0\0";
static const uint8_t f1_amounts_2[] = "CLA\2\0\2\2\7\0\0\0\4\0\0\0\3\0\0\0\6\0\0\0\2\0\0\0\0\0\0";
enum { BOOK = 31, ORDER = 15, AMOUNTS = 23, AMOUNTS_2 = 31 };

static void known_bytes(void)
{
    EXPECT(placer_encode_book(f1_costs, 2, 2, made, ROOM) == BOOK && memcmp(made, f1_book, BOOK) == 0);
    EXPECT(placer_encode_book(f1_rebates, 2, 2, made, ROOM) == BOOK && memcmp(made, f1_book_2, BOOK) == 0);
    EXPECT(placer_encode_order(f1_pairs, 4, made, ROOM) == ORDER && memcmp(made, f1_order, ORDER) == 0);
    EXPECT(placer_encode_amounts(f1_lots, 2, f1_calls, 2, NULL, made, ROOM) == AMOUNTS && memcmp(made, f1_amounts, AMOUNTS) == 0);
    EXPECT(placer_encode_amounts(f1_more, 2, f1_calls, 2, f1_reserves, made, ROOM) == AMOUNTS_2);
    EXPECT(memcmp(made, f1_amounts_2, AMOUNTS_2) == 0);
    placer_reply found = placer_find_order(f1_book, BOOK, made, ROOM);
    EXPECT(replies(found, PLACER_ACCEPTED, ORDER, 0, 0) && memcmp(made, f1_order, ORDER) == 0);
}

static int says_no_file(uint32_t number) { return (number >= 1 && number <= 3) || number == 6 || number == 8; }

static void book_as_the_library(const uint8_t *bytes, size_t len)
{
    clear(costs_back, 64);
    placer_reply read = placer_read_book(bytes, len), decoded = placer_decode_book(bytes, len, costs_back, SIDE);
    EXPECT(memcmp(&read, &decoded, sizeof read) == 0 && (read.number == PLACER_ACCEPTED || kept(costs_back, 0, 64)));
}

static void order_as_the_library(const uint8_t *bytes, size_t len)
{
    uint32_t number = placer_check_order(f1_book, BOOK, bytes, len).number;
    clear(pairs_back, 64);
    placer_reply decoded = placer_decode_order(bytes, len, pairs_back, SIDE);
    if (!says_no_file(number)) EXPECT(replies(decoded, PLACER_ACCEPTED, (len - 7) / 2, 0, 0));
    else EXPECT(replies(decoded, number, 0, 0, 0) && kept(pairs_back, 0, 64));
}

/* Where the counts are not the book's, which is 15 to the library, the length decides. */
static void amounts_as_the_library(const uint8_t *bytes, size_t len)
{
    uint32_t number = placer_read_amounts(f1_book, BOOK, bytes, len).number;
    clear(lots_back, sizeof lots), clear(calls_back, sizeof calls), clear(reserves_back, sizeof reserves);
    placer_reply decoded = amounts_back(bytes, len, SIDE, SIDE, SIDE);
    if (number == PLACER_COUNTS_DIFFER) {
        size_t whole = 7 + 4 * ((bytes[3] == 2 ? 2 : 1) * (size_t)bytes[5] + bytes[6]);
        number = len < whole ? PLACER_ENDS_EARLY : len > whole ? PLACER_BYTES_AFTER : PLACER_ACCEPTED;
    }
    if (!says_no_file(number)) EXPECT(replies(decoded, PLACER_ACCEPTED, bytes[5], bytes[6], bytes[3]));
    else EXPECT(replies(decoded, number, 0, 0, 0) && amounts_kept(0, 0));
}

/* Each length up to two bytes more, and each byte changed to each other. The bytes end where their array ends. */
static void damaged(void (*as_the_library)(const uint8_t *, size_t), const uint8_t *whole, size_t len)
{
    for (size_t cut = 0; cut <= len + 2; cut++) {
        uint8_t *bytes = (uint8_t *)memset(other + ROOM - cut, 0, cut);
        memcpy(bytes, whole, cut < len ? cut : len);
        as_the_library(bytes, cut);
        for (size_t at = 0; at < cut; at++)
            for (int change = 1; change < 256; change++) {
                bytes[at] ^= (uint8_t)change;
                as_the_library(bytes, cut);
                bytes[at] ^= (uint8_t)change;
            }
    }
}

/* The files of a call, F1's or damaged ones. */
static uint8_t book[BOOK + 1], order[ORDER + 1], amounts[AMOUNTS + 1];
static size_t book_len, order_len, amounts_len;

/* The lines of placer.h, without the last and with it. */
static const char *file_without_order(void)
{
    const char *file = "amounts";
    if (placer_read_book(book, book_len).number != PLACER_ACCEPTED) file = "book";
    return file;
}

static const char *file_with_order(void)
{
    const char *file = "amounts";
    if (placer_read_book(book, book_len).number != PLACER_ACCEPTED) file = "book";
    else if (placer_check_order(book, book_len, order, order_len).number != PLACER_ACCEPTED) file = "order";
    return file;
}

/* The calls that reply, and which files each takes. */
static const char *const takes[] = {"book", "book", "book", "book amounts", "book amounts", "book amounts", "book amounts", "book order",
                                    "book order amounts"};
static placer_reply called(int call)
{
    static uint8_t found[PLACER_ORDER_MAX];
    static uint32_t flow[PLACER_FLOW_MAX];
    switch (call) {
    case 0: return placer_read_book(book, book_len);
    case 1: return placer_pair_cost(book, book_len, 0, 0);
    case 2: return placer_find_order(book, book_len, found, PLACER_ORDER_MAX);
    case 3: return placer_read_amounts(book, book_len, amounts, amounts_len);
    case 4: return placer_find_and_run(book, book_len, amounts, amounts_len, flow, PLACER_FLOW_MAX);
    case 5: return placer_find_and_run_idle(book, book_len, amounts, amounts_len, flow, PLACER_FLOW_MAX);
    case 6: return placer_find_and_run_panel(book, book_len, amounts, amounts_len, flow, PLACER_FLOW_MAX);
    case 7: return placer_check_order(book, book_len, order, order_len);
    default: return placer_run_order(book, book_len, order, order_len, amounts, amounts_len, flow, PLACER_FLOW_MAX);
    }
}

static void damage(int which, uint32_t number)
{
    uint8_t *bytes = which == 0 ? book : which == 1 ? order : amounts;
    size_t *len = which == 0 ? &book_len : which == 1 ? &order_len : &amounts_len;
    if (number == PLACER_UNDER_SEVEN) *len = 6;
    if (number == PLACER_MARK_DIFFERS) bytes[2] = 'X';
    if (number == PLACER_VERSION_NOT_ONE) bytes[3] = 9;
    if (number == PLACER_ENDS_EARLY) *len -= 1;
    if (number == PLACER_BYTES_AFTER) *len += 1;
}

/* Every call and each file that it takes, refused by each of the five numbers, with the files after it whole (0) or refused by each. */
static void which_file(void)
{
    static const char *const names[] = {"book", "order", "amounts"};
    static const uint32_t numbers[] = {1, 2, 3, 6, 8, 0};
    for (int each = 0; each < 9 * 3 * 5 * 6; each++) {
        int call = each / 90, which = each / 30 % 3;
        if (strstr(takes[call], names[which]) == NULL) continue;
        memcpy(book, f1_book, BOOK), memcpy(order, f1_order, ORDER), memcpy(amounts, f1_amounts, AMOUNTS);
        book_len = BOOK, order_len = ORDER, amounts_len = AMOUNTS;
        damage(which, numbers[each / 6 % 5]);
        for (int later = which + 1; later < 3; later++) damage(later, numbers[each % 6]);
        EXPECT(replies(called(call), numbers[each / 6 % 5], 0, 0, 0));
        EXPECT(strcmp(call < 7 ? file_without_order() : file_with_order(), names[which]) == 0);
    }
}

int main(void)
{
    for (size_t n = 0; n <= 32; n++)
        for (size_t m = 0; m <= 32; m++) book_of(n, m, 0), book_of(n, m, 1), amounts_of(n, m, 0), amounts_of(n, m, 1);
    for (size_t count = 0; count <= PLACER_PAIRS_MAX; count++) order_of(count);
    beyond_the_limits();
    known_bytes();
    damaged(book_as_the_library, f1_book, BOOK), damaged(book_as_the_library, f1_book_2, BOOK);
    damaged(order_as_the_library, f1_order, ORDER);
    damaged(amounts_as_the_library, f1_amounts, AMOUNTS), damaged(amounts_as_the_library, f1_amounts_2, AMOUNTS_2);
    which_file();
    printf("files: %lu cases, %lu differences\n", cases, differences);
    return differences != 0;
}
