// What the files of the port's program share.
#ifndef ORACLE_PORT_H
#define ORACLE_PORT_H

#include "loomfinch.h"

typedef uint8_t u8;
typedef uint16_t u16;
typedef uint64_t u64;

void *memcpy(void *to, const void *from, u64 count);
void *memmove(void *to, const void *from, u64 count);
void *memset(void *to, int byte, u64 count);
int memcmp(const void *left, const void *right, u64 count);

// call.rs has the same: what lent memory holds before anything is put there.
static inline u64 number_fill(u64 place) {
    return 0xF111F11100000000 + place;
}

static inline u8 byte_fill(u64 place) {
    return (u8)((u8)place * 29 ^ 0xA5);
}

// Hands words, or bytes filled up to whole words, to the driver; flush sends what waits.
void reply(const void *from, u64 bytes);
void flush(void);

// Memory between two pages that may not be touched. What is lent lies at the
// upper end, or at the lower one, so that an access past that end stops the
// program. `before` mirrors the memory as it was before a call.
struct lent {
    u8 *low, *high, *at, *before;
    u64 unit, count;
};

void make_lent(struct lent *l, u64 bytes, u64 unit);
// Lends `count` elements; what was there stays, and what is new is filled.
void lend(struct lent *l, u64 count, int at_start);
// Lends `count` elements that are filled, or that hold what is given.
void lend_filled(struct lent *l, u64 count, int at_start);
void lend_given(struct lent *l, const void *from, u64 count, int at_start);
void put(struct lent *l, u64 at, const void *from, u64 count);
// 1 where the lent memory, or the cells just around it, is not as before.
int touched(const struct lent *l);
// 1 where a cell around the lent memory is not as before.
int touched_around(const struct lent *l);
// Puts back what the lent memory held before a call.
void take_back(struct lent *l);
// Hands over the first and the count of the cells that changed, and the cells.
void reply_changes(struct lent *l);

// Runs one batch of the dictionary's commands.
void dictionary_batch(const u64 *at, const u64 *end);

#endif
