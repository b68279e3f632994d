/* What the parts of the fuzzing share: fuzz.c holds the calls to each other, fuzz_call.c makes one, fuzz_files.c knows what the files say,
 * fuzz_inputs.c makes inputs. */
#ifndef FUZZ_H
#define FUZZ_H

#include "placer.h"

/* An input is a head and the bytes of the book, the order and the amounts. In the head stand, at these offsets and the lowest byte first,
 * the lengths of the first two (16 bits), of the flow and of the order's buffer (16 bits), a lot and a call (64 bits), and which end of
 * each piece of memory is lent (a bit each). */
enum { AT_BOOK_LEN = 0, AT_ORDER_LEN = 2, AT_FLOW_LEN = 4, AT_BUFFER_LEN = 6, AT_LOT = 8, AT_CALL = 16, AT_ENDS = 24, HEAD = 25 };
enum { INPUT_MAX = 1 << 16, NUMBERS = 22, VERDICTS = 4, SIDE = PLACER_LOTS_MAX };

enum entry {
    READ_BOOK,
    LOT_COSTS,
    PAIR_COST,
    READ_AMOUNTS,
    CHECK_ORDER,
    RUN_ORDER,
    FIND_ORDER,
    FIND_AND_RUN,
    FIND_AND_RUN_IDLE,
    FIND_AND_RUN_PANEL,
    ENTRIES
};

/* What is lent to a call: memory that touches an inaccessible page above it or below it, with a strip of known bytes on the other side. Of
 * a file the bytes stand elsewhere too; a buffer has none. */
struct lent {
    uint8_t *room, *at, *strip;
    const uint8_t *bytes;
    size_t len;
    int high;
};

/* All that the calls take. */
struct trial {
    struct lent book, order, amounts, buffer, flow;
    size_t lot, call;
};

/* Of a readable book the counts, the eligible pairs and their costs. Of readable amounts what the lots hold less their reserves, what the
 * calls want, and the difference of both totals. */
struct known {
    size_t n, m, pairs;
    int eligible[SIDE][SIDE];
    int64_t cost[SIDE][SIDE], has[SIDE], wants[SIDE], to_spare;
};

extern struct trial on;
extern struct known known;
extern const char *const fuzz_names[ENTRIES];

/* How often each entry point gave each number, and how often each verdict came. */
extern uint64_t fuzz_numbers[ENTRIES][NUMBERS], fuzz_verdicts[VERDICTS];

/* Tries one input; where something does not hold, says what, shows the input and aborts. */
int LLVMFuzzerTestOneInput(const uint8_t *data, size_t size);

/* Lends so many bytes at the high or the low end of the memory: a file, or a buffer where `bytes` is null. */
void lend(struct lent *lent, const uint8_t *bytes, size_t len);

/* Makes a call, twice, and holds the reply and what is written to what the header says of that call alone. A stretch is given as values. */
placer_reply ask(enum entry entry);

/* Fails where this is not so of the last call, saying what it did. */
void holds(int so, const char *what);
void replied(placer_reply expected, const char *what);

int is_run(enum entry entry);
uint64_t number_at(const uint8_t *at, size_t bytes);

/* Take up what is known, from a readable book with these counts and from readable amounts. */
void learn_book(placer_reply counts);
void learn_amounts(void);

/* What the check replied of the order is so. */
void checked(placer_reply check);

/* A run's flow fits the book and the amounts; the reply has its sums, and the verdict of what is left. But for the idle call, which may
 * take units first, no pair could be given more. */
void placed(enum entry entry, placer_reply run);

/* Lends the book enlarged by an idle call, the last, which all lots are eligible for at cost 0, the amounts with what is to spare for it,
 * and a flow for both. */
void enlarge(void);

/* Prints the last call and the files. */
void fuzz_show(void);

#endif
