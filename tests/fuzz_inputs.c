/* Makes inputs for tests/fuzz.c: files of many families, most of them then damaged, with buffers about the length that is needed. Input
 * number N of a seed is always the same. With PLAIN_DRIVER this is a program:
 *     fuzz SECONDS SEED         tries input 0, 1, and so on for so many seconds
 *     fuzz --only NUMBER SEED   tries that one alone
 * It ends with `fuzz: N inputs, M calls, seed S, 0 failures`. On a failure it says how to repeat it, and the exit status is 1, as it is
 * where a number or a verdict never came in a second or more. Else libFuzzer takes some of its inputs from here. */
#define _POSIX_C_SOURCE 199309L
#include "fuzz.h"

#include <signal.h>
#include <stdio.h>
#include <stdlib.h>
#include <string.h>
#include <time.h>
#include <unistd.h>

enum { FILE_MAX = 3 * PLACER_BOOK_MAX, MADE_MAX = HEAD + 3 * FILE_MAX };
enum family { COMPLETE, PRODUCTS, SUMS, BY_GRADE, GAPS, SPARSE, AT_LIMITS, NO_PAIRS, FAMILIES };

struct file {
    size_t len;
    uint8_t bytes[FILE_MAX];
};

static struct file book, order, amounts;
static uint32_t n, m, pairs;
static int eligible[SIDE][SIDE];
static uint64_t state;

static uint64_t mixed(uint64_t x)
{
    x = (x ^ x >> 30) * UINT64_C(0xbf58476d1ce4e5b9);
    x = (x ^ x >> 27) * UINT64_C(0x94d049bb133111eb);
    return x ^ x >> 31;
}

static uint64_t any(void) { return mixed(state += UINT64_C(0x9e3779b97f4a7c15)); }
static uint32_t below(uint32_t bound) { return (uint32_t)(any() % bound); }
static int chance(uint32_t percent) { return below(100) < percent; }
#define PICK(list) ((list)[below(sizeof(list) / sizeof(list)[0])])

static void put(uint8_t *at, uint64_t value, size_t bytes)
{
    for (size_t k = 0; k < bytes; k++) at[k] = (uint8_t)(value >> 8 * k);
}

static void append(struct file *file, uint32_t value)
{
    put(file->bytes + file->len, value, 4);
    file->len += 4;
}

static void open_file(struct file *file, const char *mark, uint32_t version, uint32_t fifth, uint32_t sixth)
{
    uint8_t counts[] = {(uint8_t)version, 0, (uint8_t)fifth, (uint8_t)sixth};
    memcpy(file->bytes, mark, 3), memcpy(file->bytes + 3, counts, 4);
    file->len = 7;
}

static uint32_t any_side(void)
{
    static const uint32_t most[] = {1, 2, 3, 3, 4, 5, 8, 9, 12};
    static const uint32_t large[] = {8, 31, 32, 32};
    return chance(4) ? PICK(large) : chance(5) ? 0 : 1 + below(PICK(most));
}

/* Lots and calls have a grade each; of both follow a pair's cost and, in some families, whether it is eligible. */
static void make_book(void)
{
    static const int32_t limits[] = {0, 1, PLACER_COST_MAX - 1, PLACER_COST_MAX}, shifts[] = {0, 15, 900, PLACER_COST_MAX};
    static const uint32_t densities[] = {100, 100, 100, 100, 90, 30, 95, 0};
    enum family family = (enum family)below(FAMILIES);
    uint32_t version = 1 + below(2), grades[2][SIDE];
    int32_t shift = version == 2 ? PICK(shifts) : 0;
    n = any_side(), m = any_side(), pairs = 0;
    for (size_t k = 0; k < 2 * SIDE; k++) grades[k / SIDE][k % SIDE] = below(family == BY_GRADE ? 5 : 30);
    open_file(&book, "CLB", version, n, m);
    for (uint32_t i = 0; i < n; i++) {
        size_t word = book.len;
        uint32_t bits = 0;
        append(&book, 0);
        for (uint32_t j = 0; j < m; j++) {
            uint32_t of_lot = grades[0][i], of_call = grades[1][j];
            int32_t cost = family == PRODUCTS ? (int32_t)(900 - of_lot * of_call) : (int32_t)(of_lot + of_call);
            if (family == COMPLETE || family == SPARSE) cost = (int32_t)below(6);
            if (family == AT_LIMITS) cost = PICK(limits);
            eligible[i][j] = chance(densities[family]) && (family != BY_GRADE || of_lot >= of_call);
            if (!eligible[i][j]) continue;
            bits |= UINT32_C(1) << j, pairs++;
            append(&book, (uint32_t)(cost - shift));
        }
        put(book.bytes + word, bits, 4);
    }
}

/* Few units or none, amounts at the limits, or those of some placing, at times with units to spare or one more wanted. */
static void make_amounts(void)
{
    static const uint32_t limits[] = {0, 1, PLACER_AMOUNT_MAX - 1, PLACER_AMOUNT_MAX}, units[] = {0, 0, 1, 7, 1000000};
    static const uint32_t held_back[] = {0, 1, 5, 900000000};
    uint32_t lots[SIDE] = {0}, calls[SIDE] = {0}, version = 1 + below(2), kind = below(6);
    for (size_t i = 0; i < n; i++) lots[i] = kind == 0 ? below(5) : kind == 1 ? PICK(limits) : 0;
    for (size_t j = 0; j < m; j++) calls[j] = kind == 0 ? below(5) : kind == 1 ? PICK(limits) : 0;
    for (size_t i = 0; kind > 1 && i < n; i++) {
        for (size_t j = 0; j < m; j++) {
            uint32_t given = eligible[i][j] ? PICK(units) : 0;
            lots[i] += given, calls[j] += given;
        }
        if (kind > 3) lots[i] += PICK(units);
    }
    if (kind == 3 && m > 0) calls[below(m)]++;
    open_file(&amounts, "CLA", version, n, m);
    uint32_t reserve = version == 2 ? PICK(held_back) : 0;
    int added = reserve == 5 || kind == 2;
    for (size_t i = 0; i < n; i++) append(&amounts, added && lots[i] + reserve <= PLACER_AMOUNT_MAX ? lots[i] += reserve : lots[i]);
    for (size_t j = 0; j < m; j++) append(&amounts, calls[j]);
    for (size_t i = 0; version == 2 && i < n; i++) append(&amounts, reserve <= lots[i] ? reserve : lots[i]);
}

static void exchange(size_t p, size_t q)
{
    uint8_t kept[2], *one = order.bytes + 7 + 2 * p, *other = order.bytes + 7 + 2 * q;
    memcpy(kept, one, 2), memcpy(one, other, 2), memcpy(other, kept, 2);
}

/* The order that the library finds; or all pairs lot by lot, at times shuffled. */
static void make_order(void)
{
    placer_reply found = placer_find_order(book.bytes, book.len, order.bytes, PLACER_ORDER_MAX);
    order.len = 7 + 2 * pairs;
    if (found.number == 0 && chance(80)) return;
    open_file(&order, "CLO", 1, pairs, pairs >> 8);
    for (uint32_t k = 0; k < n * m; k++)
        if (eligible[k / m][k % m]) order.bytes[order.len++] = (uint8_t)(k / m), order.bytes[order.len++] = (uint8_t)(k % m);
    if (chance(50)) return;
    for (uint32_t k = 1; k < pairs; k++) exchange(k, below(k + 1));
}

/* One change to the pairs: two exchanged, one instead of another, one left out, one once more, or all once more. */
static void change_order(void)
{
    uint32_t count = pairs, kind = below(6);
    if (count == 0) return;
    uint8_t *at = order.bytes + 7 + 2 * below(count), *end = order.bytes + order.len;
    if (kind < 2) exchange(below(count), below(count));
    if (kind == 2) memcpy(at, order.bytes + 7 + 2 * below(count), 2);
    if (kind == 3) memmove(at, at + 2, (size_t)(end - at - 2)), order.len -= 2, count--;
    if (kind == 4) memmove(at + 2, at, (size_t)(end - at)), order.len += 2, count++;
    if (kind == 5) memcpy(end, order.bytes + 7, 2 * count), order.len += 2 * count, count *= 2;
    put(order.bytes + 5, count, 2);
}

/* One change to a file's bytes: a bit, a byte, a field or a count at a limit, cut, lengthened, or with a stretch of another file. */
static void damage(struct file *file, const struct file *other)
{
    static const uint8_t bytes[] = {0, 1, 2, 3, 8, 9, 31, 32, 33, 127, 128, 255};
    static const uint32_t fields[] = {0, 1, 1000000, 1000001, 0u - 1000000, 0u - 1000001, 1000000000, 1000000001, 1u << 31, UINT32_MAX};
    size_t at = file->len == 0 ? 0 : below((uint32_t)file->len), field = 7 + (at > 7 ? (at - 7) / 4 * 4 : 0), len = below(9);
    size_t from = below((uint32_t)other->len + 1), rest = other->len - from < file->len - at ? other->len - from : file->len - at;
    switch (file->len < 7 ? 5 : below(8)) {
    case 0: file->bytes[at] ^= (uint8_t)(1 << below(8)); break;
    case 1: file->bytes[at] = PICK(bytes); break;
    case 2: file->bytes[below(7)] = PICK(bytes); break;
    case 3: file->bytes[5 + below(2)] += (uint8_t)(chance(50) ? 1 : -1); break;
    case 4: file->len = chance(20) ? below(8) : at; break;
    case 5: memset(file->bytes + file->len, PICK(bytes), len), file->len += len; break;
    case 6:
        if (field + 4 <= file->len) put(file->bytes + field, PICK(fields), 4);
        break;
    default: memmove(file->bytes + at, other->bytes + from, len < rest ? len : rest);
    }
}

/* A length about the one that is needed. */
static uint32_t about(uint32_t needed, uint32_t most)
{
    uint32_t lens[] = {needed, needed, needed + 1, needed + 3, needed > 0 ? needed - 1 : 0, 0, most, most, below(most + 8)};
    return PICK(lens);
}

/* A lot or a call, in the book or not. */
static uint64_t any_of_side(uint32_t side)
{
    uint64_t within = below(side + 1), higher = within + (UINT64_C(1) << (8 + below(56)));
    uint64_t numbers[] = {within, within, side, 31, 32, 255, 256, UINT64_C(1) << 32, higher, any(), UINT64_MAX};
    return PICK(numbers);
}

/* Input number `number` of a seed; its length. */
static size_t make_input(uint64_t seed, uint64_t number, uint8_t *data)
{
    struct file *const files[] = {&book, &order, &amounts};
    static const uint32_t damages[] = {0, 0, 0, 0, 0, 0, 1, 1, 1, 2, 3};
    uint8_t *at = data + HEAD;
    state = mixed(mixed(seed) + number);
    make_book(), make_amounts(), make_order();
    if (chance(30)) change_order();
    for (uint32_t k = PICK(damages); k > 0; k--) {
        struct file *file = PICK(files);
        damage(file, PICK(files));
    }
    put(data + AT_BOOK_LEN, book.len, 2), put(data + AT_ORDER_LEN, order.len, 2);
    put(data + AT_FLOW_LEN, about(n * m, PLACER_FLOW_MAX), 2), put(data + AT_BUFFER_LEN, about(7 + 2 * pairs, PLACER_ORDER_MAX), 2);
    put(data + AT_LOT, any_of_side(n), 8), put(data + AT_CALL, any_of_side(m), 8), put(data + AT_ENDS, any(), 1);
    for (size_t k = 0; k < 3; k++) memcpy(at, files[k]->bytes, files[k]->len), at += files[k]->len;
    return (size_t)(at - data);
}

#ifdef PLAIN_DRIVER
static uint64_t seed, number;

static void failed(int signal_number)
{
    if (signal_number == SIGALRM) fprintf(stderr, "fuzz: FAILED: a call does not return\n"), fuzz_show();
    else if (signal_number != SIGABRT) fprintf(stderr, "fuzz: FAILED: a call ends by signal %d\n", signal_number), fuzz_show();
    fprintf(stderr, "fuzz: seed %llu, input %llu; to repeat it: fuzz --only %llu %llu\n", (unsigned long long)seed,
            (unsigned long long)number, (unsigned long long)number, (unsigned long long)seed);
    _exit(1);
}

static uint64_t calls(void)
{
    uint64_t sum = 0;
    for (size_t k = 0; k < ENTRIES * NUMBERS; k++) sum += 2 * fuzz_numbers[k / NUMBERS][k % NUMBERS];
    return sum;
}

/* Tells what came how often; whether every number and every verdict did. */
static int tell(void)
{
    uint32_t numbers = 0, verdicts = 0;
    printf("fuzz: accepted:");
    for (size_t entry = 0; entry < ENTRIES; entry++)
        printf("%s %s %llu", entry == 0 ? "" : ",", fuzz_names[entry], (unsigned long long)fuzz_numbers[entry][0]);
    printf("\nfuzz: refused by 1 to 21:");
    for (size_t k = 1; k < NUMBERS; k++) {
        uint64_t sum = 0;
        for (size_t entry = 0; entry < ENTRIES; entry++) sum += fuzz_numbers[entry][k];
        printf(" %llu", (unsigned long long)sum);
        numbers += sum > 0;
    }
    printf("; runs full, short, covered:");
    for (size_t k = 1; k < VERDICTS; k++) printf(" %llu", (unsigned long long)fuzz_verdicts[k]), verdicts += fuzz_verdicts[k] > 0;
    printf("\nfuzz: met %u of %d numbers and %u of %d verdicts\n", (unsigned)numbers, NUMBERS - 1, (unsigned)verdicts, VERDICTS - 1);
    return numbers == NUMBERS - 1 && verdicts == VERDICTS - 1;
}

/* Whether a text is a whole number of at most 15 digits. */
static int whole_number(const char *text, uint64_t *into)
{
    size_t digits = strspn(text, "0123456789");
    *into = strtoull(text, NULL, 10);
    return digits > 0 && digits <= 15 && text[digits] == '\0';
}

static uint64_t milliseconds(void)
{
    struct timespec now;
    clock_gettime(CLOCK_MONOTONIC, &now);
    return (uint64_t)now.tv_sec * 1000 + (uint64_t)now.tv_nsec / 1000000;
}

int main(int argc, char **argv)
{
    static uint8_t data[MADE_MAX];
    uint64_t seconds = 0;
    int only = argc == 4 && strcmp(argv[1], "--only") == 0;
    if (!(only || argc == 3) || !whole_number(argv[argc - 2], only ? &number : &seconds) || !whole_number(argv[argc - 1], &seed))
        return fprintf(stderr, "usage: fuzz SECONDS SEED\n       fuzz --only NUMBER SEED\n"), 2;
    const int signals[] = {SIGABRT, SIGSEGV, SIGBUS, SIGILL, SIGFPE, SIGALRM};
    for (size_t k = 0; k < sizeof signals / sizeof signals[0]; k++) signal(signals[k], failed);
    uint64_t first = number, start = milliseconds();
    do {
        alarm(60);
        LLVMFuzzerTestOneInput(data, make_input(seed, number, data));
        number++;
    } while (!only && milliseconds() - start < seconds * 1000);
    int all_met = only || seconds == 0 || tell();
    printf("fuzz: %llu inputs, %llu calls, seed %llu, 0 failures\n", (unsigned long long)(number - first), (unsigned long long)calls(),
           (unsigned long long)seed);
    return !all_met;
}
#else
size_t LLVMFuzzerMutate(uint8_t *data, size_t size, size_t max_size);
size_t LLVMFuzzerCustomMutator(uint8_t *data, size_t size, size_t max_size, unsigned int seed);

/* libFuzzer's own change, or an input made here. */
size_t LLVMFuzzerCustomMutator(uint8_t *data, size_t size, size_t max_size, unsigned int seed)
{
    static uint8_t made[MADE_MAX];
    size_t len = make_input(0, seed, made);
    if (seed % 2 == 0 || len > max_size) return LLVMFuzzerMutate(data, size, max_size);
    memcpy(data, made, len);
    return len;
}
#endif
