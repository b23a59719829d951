/*
 * The road-noise book for programs in C and C++: clear a store, apply one record to it, ask a receiver.
 * `tests/built viewer_c` proves the three functions and builds them into libviewer.a, for x86-64.
 *
 * A call comes back for every input, with 0 or with one refusal, and a refusal changes no byte of what was lent. Nothing has to be
 * checked first: bytes that are no book are refused as damaged. What can be seen is in docs/STORE.md; bytes that something else wrote
 * and that happen to be another book cannot be told from it. All zeros are a cleared store.
 *
 * A caller owes what any C function is owed that takes a pointer and a length:
 *   - A pointer has as many bytes behind it as the length beside it says. With the length 0 it may be NULL: it is not followed.
 *   - What a call writes (the store of clear and apply, the output of ask) overlaps nothing else that the call is lent.
 *   - One thread at a time works on one store. Asks alone may go on side by side, each with its own output. Two stores have nothing
 *     to do with each other: no call allocates, or keeps anything after it.
 *   - A call takes up to 64 KiB of stack.
 */
#ifndef NGORETAIWHE_H
#define NGORETAIWHE_H

#include <stddef.h>
#include <stdint.h>

#ifdef __cplusplus
extern "C" {
#endif

/* The bytes of a store, and of what an ask writes. */
#define NGORETAIWHE_STORE_LENGTH 23552
#define NGORETAIWHE_OUTPUT_LENGTH 4

/* What an ask writes for an index that is quiet; no level is that number. */
#define NGORETAIWHE_QUIET 65535

/* How many slots a store has, from slot 0 on. */
#define NGORETAIWHE_SOURCES 512
#define NGORETAIWHE_RECEIVERS 64
#define NGORETAIWHE_WALLS 64

/*
 * The numbers. The lowest one that applies is given, pair by pair for 10 to 14. Two come late: a 1 for sums that do not go with the
 * roads that stand, after all others, and a 2 for bytes that follow a record or for the length of an output, after that too.
 */
enum ngoretaiwhe_refusal {
    NGORETAIWHE_DONE = 0,         /* done, or told */
    NGORETAIWHE_DAMAGED = 1,      /* the store is damaged: clear it, and place again what stands */
    NGORETAIWHE_LENGTH = 2,       /* the bytes end inside the record, or more follow it; or the output has not four bytes */
    NGORETAIWHE_UNKNOWN_KIND = 3, /* there is no such kind of record */
    NGORETAIWHE_LEFTOVER = 4,     /* a bit that is left over at the end of the record is set */
    NGORETAIWHE_FIELD = 5,        /* a field is not allowed; place: its number, 1 is the slot */
    NGORETAIWHE_SURFACE = 6,      /* the surface is for more than 60 km/h, and the road for less */
    NGORETAIWHE_TRUCK = 7,        /* a truck would be quieter than a car */
    NGORETAIWHE_TAKEN = 8,        /* not given: what is placed takes the place of what stands in the slot */
    NGORETAIWHE_VACANT = 9,       /* nothing stands in the slot */
    NGORETAIWHE_NEAR = 10,        /* road and receiver are less than 5 m apart; place of 10 to 14: the slot of the other one */
    NGORETAIWHE_FAR = 11,         /* they are more than 2 km apart */
    NGORETAIWHE_LONG = 12,        /* the road, told by its middle, is longer than half the way: tell it by its ends */
    NGORETAIWHE_LOUD = 13,        /* the road's share is above 90 dB */
    NGORETAIWHE_TWO_WALLS = 14    /* two noise walls stand between them */
};

/* A result is number times 1024 plus place. The number of a result, and its place. */
static inline unsigned ngoretaiwhe_number(uint32_t result)
{
    return (unsigned)(result / 1024);
}

static inline unsigned ngoretaiwhe_place(uint32_t result)
{
    return (unsigned)(result % 1024);
}

/* Makes the store a book with nothing in it, whatever its bytes were. Refusal: 1, if the store has another length. */
uint32_t ngoretaiwhe_clear(uint8_t *store, size_t store_length);

/*
 * Does one record to the store: placing or withdrawing a road, a receiver or a noise wall. A record that asks changes nothing, and
 * is told by its number and place alone. Refusals: those of the reader and of the book, in their order; then 2, if bytes follow.
 */
uint32_t ngoretaiwhe_apply(uint8_t *store, size_t store_length, const uint8_t *record, size_t record_length);

/*
 * Writes L_DEN and L_Night of the receiver in a slot, in tenths of a dB, into the output's four bytes: two for each, the low one
 * first. Refusals: 1; 5, if there is no such slot; 9, if no receiver stands in it; then 2, if the output has not four bytes.
 */
uint32_t ngoretaiwhe_ask(const uint8_t *store, size_t store_length, size_t slot, uint8_t *output, size_t output_length);

#ifdef __cplusplus
}
#endif

#endif
