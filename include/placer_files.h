/* placer_files.h: makes the placer's three files from arrays, and takes them apart into arrays.
 *
 * It goes with placer.h, which says what the files hold. Every function is inline (C99 or C++11) and uses no heap; placer_decode_book
 * alone calls the library. This header is tested, not proved.
 *
 *     const int32_t costs[] = {1, 2, 3, PLACER_NOT_ELIGIBLE};
 *     const uint32_t lots[] = {5, 4}, calls[] = {4, 5};
 *     uint8_t book[PLACER_BOOK_MAX], amounts[PLACER_AMOUNTS_MAX];
 *     size_t book_len = placer_encode_book(costs, 2, 2, book, sizeof book);
 *     size_t amounts_len = placer_encode_amounts(lots, 2, calls, 2, NULL, amounts, sizeof amounts);
 *
 * An encoder returns the length of the file that it wrote; later bytes are kept. It returns 0 and writes nothing where the buffer is too
 * short for the file, or a count for its field; a file of length 0 is refused by 1. It tests nothing else: a cost, an amount or a
 * reserve outside its limits, or 33 to 255 lots or calls, are encoded, and the library then refuses the file.
 *
 * A decoder replies as the calls of placer.h do, and any bytes may be handed over. Where it accepts it writes the arrays, of which later
 * entries are kept; a refusal writes nothing. An array that is too short is 17, after every other refusal.
 *
 * Nothing outside the stated lengths is read or written, and bytes need no alignment. A pointer must not be null, even where its length is
 * 0, but for the reserves of placer_encode_amounts. A buffer must not overlap another argument. Names that begin with placer_files_ are
 * the header's own. */
#ifndef PLACER_FILES_H
#define PLACER_FILES_H

#include "placer.h"

#define PLACER_NOT_ELIGIBLE INT32_MIN /* stands for the cost of a pair that is not eligible */

/* A pair of an order. */
typedef struct {
    uint8_t lot;
    uint8_t call;
} placer_pair;

static inline uint32_t placer_files_word(const uint8_t *at)
{
    return (uint32_t)at[0] | (uint32_t)at[1] << 8 | (uint32_t)at[2] << 16 | (uint32_t)at[3] << 24;
}

static inline const uint8_t *placer_files_get(const uint8_t *at, uint32_t *words, size_t count)
{
    for (size_t k = 0; k < count; k++, at += 4) words[k] = placer_files_word(at);
    return at;
}

static inline uint8_t *placer_files_put(uint8_t *at, const uint32_t *words, size_t count)
{
    for (size_t k = 0; k < count; k++)
        for (int shift = 0; shift < 32; shift += 8) *at++ = (uint8_t)(words[k] >> shift);
    return at;
}

static inline uint8_t *placer_files_open(uint8_t *file, char letter, int version, size_t byte5, size_t byte6)
{
    file[0] = 'C', file[1] = 'L', file[2] = (uint8_t)letter;
    file[3] = (uint8_t)version, file[4] = 0;
    file[5] = (uint8_t)byte5, file[6] = (uint8_t)byte6;
    return file + 7;
}

/* The first of 1, 2, 3, 6 and 8 that applies to an order or amounts, or 0. */
static inline uint32_t placer_files_refusal(const uint8_t *file, size_t len, char letter, int last_version)
{
    if (len < 7) return PLACER_UNDER_SEVEN;
    if (file[0] != 'C' || file[1] != 'L' || file[2] != letter) return PLACER_MARK_DIFFERS;
    if (file[3] < 1 || file[3] > last_version || file[4] != 0) return PLACER_VERSION_NOT_ONE;
    size_t fields = letter == 'O' ? 2 * (file[5] + (size_t)256 * file[6]) : 4 * ((size_t)file[3] * file[5] + file[6]);
    if (len - 7 < fields) return PLACER_ENDS_EARLY;
    return len - 7 > fields ? PLACER_BYTES_AFTER : PLACER_ACCEPTED;
}

static inline placer_reply placer_files_reply(uint32_t number, uint64_t first, uint64_t second, uint64_t third)
{
    placer_reply reply = {number, PLACER_NO_RUN, {first, second, third, 0}};
    return reply;
}

/* placer_encode_book: make a book, of version 2 where a cost is below 0, a rebate, else of version 1.
 *   costs            read: n * m entries, the cost of lot i and call j at costs[i * m + j], PLACER_NOT_ELIGIBLE where not eligible
 *   n, m             the counts of lots and calls
 *   book, book_len   written. PLACER_BOOK_MAX bytes are always enough for a book that the library reads.
 *   returns          the length of the file, or 0 */
static inline size_t placer_encode_book(const int32_t *costs, size_t n, size_t m, uint8_t *book, size_t book_len)
{
    if (n > UINT8_MAX || m > UINT8_MAX) return 0;
    size_t len = 7 + 4 * n;
    int version = 1;
    for (size_t k = 0; k < n * m; k++) {
        if (costs[k] == PLACER_NOT_ELIGIBLE) continue;
        if (costs[k] < 0) version = 2;
        len += 4;
    }
    if (book_len < len) return 0;
    uint8_t *at = placer_files_open(book, 'B', version, n, m);
    for (size_t i = 0; i < n; i++, costs += m) {
        uint8_t *word_at = at;
        uint32_t word = 0; /* of more than 32 calls it holds the first 32: such a book is refused before its words are read */
        at += 4;
        for (size_t j = 0; j < m; j++) {
            if (costs[j] == PLACER_NOT_ELIGIBLE) continue;
            uint32_t cost = (uint32_t)costs[j];
            if (j < 32) word |= (uint32_t)1 << j;
            at = placer_files_put(at, &cost, 1);
        }
        placer_files_put(word_at, &word, 1);
    }
    return len;
}

/* placer_decode_book: take a book apart.
 *   book               read
 *   costs, costs_len   written where the call accepts: n * m entries, as placer_encode_book reads them. Fewer is 17; PLACER_PAIRS_MAX
 *                      are always enough.
 *   accepted           values: n, m
 *   refused            the book's numbers, 17 */
static inline placer_reply placer_decode_book(const uint8_t *book, size_t book_len, int32_t *costs, size_t costs_len)
{
    placer_reply reply = placer_read_book(book, book_len);
    if (reply.number != PLACER_ACCEPTED) return reply;
    size_t n = (size_t)reply.values[0], m = (size_t)reply.values[1];
    if (costs_len < n * m) return placer_files_reply(PLACER_BUFFER_TOO_SHORT, 0, 0, 0);
    const uint8_t *at = book + 7;
    for (size_t i = 0; i < n; i++, costs += m) {
        uint32_t word = placer_files_word(at);
        at += 4;
        for (size_t j = 0; j < m; j++) {
            costs[j] = PLACER_NOT_ELIGIBLE;
            if ((word >> j & 1) == 0) continue;
            costs[j] = (int32_t)placer_files_word(at);
            at += 4;
        }
    }
    return reply;
}

/* placer_encode_order: make an order.
 *   pairs, count       read: the pairs in the order wanted, at most 65,535
 *   order, order_len   written: 7 bytes and two a pair. PLACER_ORDER_MAX bytes are always enough for an order that passes the check.
 *   returns            the length of the file, or 0 */
static inline size_t placer_encode_order(const placer_pair *pairs, size_t count, uint8_t *order, size_t order_len)
{
    if (count > UINT16_MAX || order_len < 7 + 2 * count) return 0;
    uint8_t *at = placer_files_open(order, 'O', 1, count % 256, count / 256);
    for (size_t k = 0; k < count; k++) *at++ = pairs[k].lot, *at++ = pairs[k].call;
    return 7 + 2 * count;
}

/* placer_decode_order: take an order apart. It is held against no book: placer_check_order does that.
 *   order              read
 *   pairs, pairs_len   written where the call accepts: an entry for each pair. Fewer is 17; PLACER_PAIRS_MAX are always enough for an
 *                      order that passes the check.
 *   accepted           values: the count of pairs
 *   refused            1, 2, 3, 6, 8, 17 */
static inline placer_reply placer_decode_order(const uint8_t *order, size_t order_len, placer_pair *pairs, size_t pairs_len)
{
    uint32_t refusal = placer_files_refusal(order, order_len, 'O', 1);
    if (refusal != PLACER_ACCEPTED) return placer_files_reply(refusal, 0, 0, 0);
    size_t count = (order_len - 7) / 2;
    if (pairs_len < count) return placer_files_reply(PLACER_BUFFER_TOO_SHORT, 0, 0, 0);
    for (size_t k = 0; k < count; k++) pairs[k].lot = order[7 + 2 * k], pairs[k].call = order[8 + 2 * k];
    return placer_files_reply(PLACER_ACCEPTED, count, 0, 0);
}

/* placer_encode_amounts: make amounts, of version 2 with reserves, else of version 1.
 *   lots, n                read: what each lot holds
 *   calls, m               read: what each call wants
 *   reserves               null, or read: n entries, what the desk holds back of each lot
 *   amounts, amounts_len   written. PLACER_AMOUNTS_MAX bytes are always enough for amounts that the library reads.
 *   returns                the length of the file, or 0 */
static inline size_t placer_encode_amounts(const uint32_t *lots, size_t n, const uint32_t *calls, size_t m, const uint32_t *reserves,
                                           uint8_t *amounts, size_t amounts_len)
{
    if (n > UINT8_MAX || m > UINT8_MAX) return 0;
    size_t reserved = reserves != NULL ? n : 0, len = 7 + 4 * (n + m + reserved);
    if (amounts_len < len) return 0;
    uint8_t *at = placer_files_open(amounts, 'A', reserves != NULL ? 2 : 1, n, m);
    at = placer_files_put(at, lots, n);
    at = placer_files_put(at, calls, m);
    placer_files_put(at, reserves, reserved);
    return len;
}

/* placer_decode_amounts: take amounts apart. They are held against no book: placer_read_amounts does that.
 *   amounts                  read
 *   lots, calls, reserves    each with its length; written where the call accepts: n, m and n entries, as placer_encode_amounts reads
 *                            them. In version 1 the reserves are 0. Fewer entries are 17; PLACER_LOTS_MAX and PLACER_CALLS_MAX are
 *                            always enough for amounts that go with a book.
 *   accepted                 values: n, m, the file's version
 *   refused                  1, 2, 3, 6, 8, 17 */
static inline placer_reply placer_decode_amounts(const uint8_t *amounts, size_t amounts_len, uint32_t *lots, size_t lots_len,
                                                 uint32_t *calls, size_t calls_len, uint32_t *reserves, size_t reserves_len)
{
    uint32_t refusal = placer_files_refusal(amounts, amounts_len, 'A', 2);
    if (refusal != PLACER_ACCEPTED) return placer_files_reply(refusal, 0, 0, 0);
    size_t n = amounts[5], m = amounts[6];
    if (lots_len < n || calls_len < m || reserves_len < n) return placer_files_reply(PLACER_BUFFER_TOO_SHORT, 0, 0, 0);
    const uint8_t *at = placer_files_get(amounts + 7, lots, n);
    at = placer_files_get(at, calls, m);
    if (amounts[3] == 2) placer_files_get(at, reserves, n);
    for (size_t i = 0; amounts[3] == 1 && i < n; i++) reserves[i] = 0;
    return placer_files_reply(PLACER_ACCEPTED, n, m, amounts[3]);
}

#endif
