// Lent memory between pages that may not be touched.

#include "port.h"

void *mmap(void *at, u64 bytes, int protection, int flags, int file, long offset);
int mprotect(void *at, u64 bytes, int protection);

enum { NO_ACCESS = 0, READ_WRITE = 3, PRIVATE_ANONYMOUS = 0x22 };

// A multiple of every page size in use. NEAR: cells around a lent slice that
// are looked at where no guard page is.
enum { PAGE = 1 << 16, NEAR = 64 };

void make_lent(struct lent *l, u64 bytes, u64 unit) {
    u64 room = (bytes + PAGE - 1) / PAGE * PAGE;
    u8 *all = mmap(0, room + 2 * PAGE, NO_ACCESS, PRIVATE_ANONYMOUS, -1, 0);
    mprotect(all + PAGE, room, READ_WRITE);
    l->low = all + PAGE;
    l->high = l->low + room;
    l->at = l->high;
    l->before = mmap(0, room, READ_WRITE, PRIVATE_ANONYMOUS, -1, 0);
    l->unit = unit;
    l->count = 0;
}

static u64 bytes_of(const struct lent *l) {
    return l->count * l->unit;
}

// The cells that are looked at: the slice and its neighbours.
static u8 *near_low(const struct lent *l) {
    return l->at - l->low < NEAR ? l->low : l->at - NEAR;
}

static u8 *near_high(const struct lent *l) {
    u8 *end = l->at + bytes_of(l);
    return l->high - end < NEAR ? l->high : end + NEAR;
}

static u8 *mirror(const struct lent *l, const u8 *at) {
    return l->before + (at - l->low);
}

static void remember(struct lent *l) {
    u8 *low = near_low(l);
    memcpy(mirror(l, low), low, (u64)(near_high(l) - low));
}

static void fill(struct lent *l, u64 from) {
    for (u64 place = from; place < l->count; place++) {
        if (l->unit == 8) {
            ((u64 *)l->at)[place] = number_fill(place);
        } else {
            l->at[place] = byte_fill(place);
        }
    }
}

static void place(struct lent *l, u64 count, int at_start) {
    l->count = count;
    l->at = at_start ? l->low : l->high - count * l->unit;
}

void lend(struct lent *l, u64 count, int at_start) {
    u64 kept = count < l->count ? count : l->count;
    u8 *from = l->at;
    place(l, count, at_start);
    memmove(l->at, from, kept * l->unit);
    fill(l, kept);
    remember(l);
}

void lend_filled(struct lent *l, u64 count, int at_start) {
    place(l, count, at_start);
    fill(l, 0);
    remember(l);
}

void lend_given(struct lent *l, const void *from, u64 count, int at_start) {
    place(l, count, at_start);
    memcpy(l->at, from, bytes_of(l));
    // A text cut inside a character must not be completed by what follows it.
    u8 *end = l->at + bytes_of(l);
    memset(end, 0x80, (u64)(near_high(l) - end));
    remember(l);
}

void put(struct lent *l, u64 at, const void *from, u64 count) {
    memcpy(l->at + at * l->unit, from, count * l->unit);
    remember(l);
}

int touched(const struct lent *l) {
    u8 *low = near_low(l);
    return memcmp(low, mirror(l, low), (u64)(near_high(l) - low)) != 0;
}

int touched_around(const struct lent *l) {
    u8 *low = near_low(l), *end = l->at + bytes_of(l);
    return memcmp(low, mirror(l, low), (u64)(l->at - low)) != 0 ||
           memcmp(end, mirror(l, end), (u64)(near_high(l) - end)) != 0;
}

void take_back(struct lent *l) {
    memcpy(l->at, mirror(l, l->at), bytes_of(l));
}

void reply_changes(struct lent *l) {
    u64 range[2] = {0, 0};
    if (!touched(l)) {
        reply(range, 16);
        return;
    }
    u64 first = 0, end = bytes_of(l);
    const u8 *before = mirror(l, l->at);
    for (; first < end && l->at[first] == before[first]; first++) {
    }
    for (; end > first && l->at[end - 1] == before[end - 1]; end--) {
    }
    range[0] = first / l->unit;
    range[1] = (end + l->unit - 1) / l->unit - range[0];
    reply(range, 16);
    reply(l->at + range[0] * l->unit, range[1] * l->unit);
    remember(l);
}
