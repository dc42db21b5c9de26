// The dictionary's calls, on a dictionary that stays here between them.

#include "port.h"

void _exit(int status);
int clock_gettime(int clock, void *time);

// dictionary/link.rs has the same numbers.
enum { BEGIN, LEND, PUT, FETCH, TIME, READ_THROUGH };
enum { NEW = 8, INSERT, READ, READ_U8, READ_U16, READ_U32, READ_U64, FIND, CNS, COUNTER };
enum { WRITE = COUNTER + 1, VALIDATE, RESTORE, CONSUME, CYCLE, ERROR_BIT, CHECK, CHECK_ALL, EXPLAIN };

// The dictionary's four slices, and the store.
enum { SLICES = 5, LARGEST = 32768 };

static struct lent slices[SLICES], name, vals, encodings, numbers, out, events;
static int start_side;

// The lengths are those that are lent; name, vals and encodings follow, each
// filled up to whole words. The edition of a new dictionary stands in the kind's place. A value to
// write is its type, as `kind`, and its encoding; a count to check stands in the sub-index's place. A range to restore
// is `index` and `kind`. A payload is `encodings`, its sender and version stand in
// the sub-index's and the kind's place, ready in the access's; the payloads of a cycle
// are `vals`. A node whose bit is set stands in the sub-index's place, and so does a channel
// to check, or whose element, as `kind`, is explained; the numbers of all channels are lent as
// `events`.
struct call {
    u64 op, index, sub_index, kind, access, has_default;
    u64 low_type, low, high_type, high;
    u64 name, vals, encodings, numbers, out, events;
    u64 memory[];
};

#define WORDS(slice) (u64 *)(slice).at, (slice).count
#define BYTES(slice) (slice).at, (slice).count
#define DICTIONARY WORDS(slices[0]), WORDS(slices[1]), WORDS(slices[2]), BYTES(slices[3])
#define STORE BYTES(slices[4])

static u64 answer(const struct call *c) {
    u16 index = (u16)c->index;
    u8 sub_index = (u8)c->sub_index;
    u64 *number = (u64 *)numbers.at;
    switch (c->op) {
    case NEW:
        return loomfinch_new(WORDS(slices[0]), c->kind);
    case INSERT:
        return loomfinch_insert(DICTIONARY, index, c->kind, c->access, c->has_default, c->low_type,
                                c->low, c->high_type, c->high, BYTES(name), WORDS(vals),
                                BYTES(encodings));
    case READ:
        return loomfinch_read(DICTIONARY, index, sub_index, WORDS(numbers));
    case READ_U8:
        return loomfinch_read_u8(DICTIONARY, index, sub_index, number);
    case READ_U16:
        return loomfinch_read_u16(DICTIONARY, index, sub_index, number);
    case READ_U32:
        return loomfinch_read_u32(DICTIONARY, index, sub_index, number);
    case READ_U64:
        return loomfinch_read_u64(DICTIONARY, index, sub_index, number);
    case FIND:
        return loomfinch_find_by_name(DICTIONARY, BYTES(name), number);
    case CNS:
        return loomfinch_get_configured_cns(DICTIONARY, BYTES(out), number);
    case WRITE:
        return loomfinch_write(DICTIONARY, STORE, index, sub_index, c->kind, BYTES(encodings),
                               number, number + 1);
    case VALIDATE:
        return loomfinch_validate_pdo_mapping(DICTIONARY, index, sub_index);
    case RESTORE:
        return loomfinch_restore_power_on_values(DICTIONARY, STORE, index, (u16)c->kind);
    case CONSUME:
        return loomfinch_consume_pdo_payload(DICTIONARY, BYTES(encodings), sub_index, (u8)c->kind,
                                             c->access, WORDS(events), number);
    case CYCLE:
        return loomfinch_consume_cycle(DICTIONARY, BYTES(encodings), WORDS(vals), WORDS(events),
                                       number, number + 1);
    case ERROR_BIT:
        return loomfinch_update_pdo_error_object(DICTIONARY, index, sub_index);
    case CHECK:
        return loomfinch_check(DICTIONARY, sub_index, number);
    case CHECK_ALL:
        return loomfinch_check_all(DICTIONARY, WORDS(events), number);
    case EXPLAIN:
        return loomfinch_explain(DICTIONARY, sub_index, (u8)c->kind, WORDS(numbers));
    default:
        return loomfinch_increment_counter(DICTIONARY, index, sub_index);
    }
}

static u64 words(u64 bytes) {
    return (bytes + 7) / 8;
}

// Which lent memory was touched that nothing may touch: what a call only
// reads, and the cells around everything.
static u64 strays(void) {
    u64 found = (u64)(touched(&name) | touched(&vals) | touched(&encodings));
    found |= (u64)(touched_around(&numbers) | touched_around(&out) | touched_around(&events)) << 1;
    for (int k = 0; k < SLICES; k++) {
        found |= (u64)touched_around(&slices[k]) << (2 + k);
    }
    return found;
}

// Lends what a call takes besides the dictionary; gives the end of its command.
static const u64 *lend_arguments(const struct call *c) {
    const u64 *given_vals = c->memory + words(c->name);
    const u64 *given_encodings = given_vals + c->vals;
    lend_given(&name, c->memory, c->name, start_side);
    lend_given(&vals, given_vals, c->vals, start_side);
    lend_given(&encodings, given_encodings, c->encodings, start_side);
    lend_filled(&numbers, c->numbers, start_side);
    lend_filled(&out, c->out, start_side);
    lend_filled(&events, c->events, start_side);
    return given_encodings + words(c->encodings);
}

static const u64 *make_call(const u64 *at) {
    const struct call *c = (const struct call *)at;
    const u64 *next = lend_arguments(c);
    u64 head[2] = {answer(c), 0};
    head[1] = strays();
    reply(head, 16);
    reply(numbers.at, 8 * numbers.count);
    reply(out.at, out.count);
    reply_changes(&events);
    for (int k = 0; k < SLICES; k++) {
        reply_changes(&slices[k]);
    }
    return next;
}

static u64 now(void) {
    struct {
        long seconds, nanoseconds;
    } t;
    clock_gettime(1, &t);
    return (u64)t.seconds * 1000000000 + (u64)t.nanoseconds;
}

// Nanoseconds of a call that is made several times. One that writes finds the
// same dictionary each time, and what puts it back is not timed.
static const u64 *time_call(const u64 *at) {
    const struct call *c = (const struct call *)(at + 3);
    const u64 *next = lend_arguments(c);
    u64 repeats = at[1], writes = at[2], total[2] = {0, 0};
    if (!writes) {
        u64 start = now();
        for (u64 k = 0; k < repeats; k++) {
            total[0] = answer(c);
        }
        total[1] = now() - start;
    }
    for (u64 k = 0; writes && k < repeats; k++) {
        u64 start = now();
        total[0] = answer(c);
        total[1] += now() - start;
        for (int slice = 0; slice < SLICES; slice++) {
            take_back(&slices[slice]);
        }
    }
    reply(total, 16);
    return next;
}

// A compiler may not think that a second read gives what the first one gave.
static void forget(void) {
    __asm__ volatile("" ::: "memory");
}

static u64 sum(const u8 *at, u64 bytes) {
    u64 all = 0, word;
    for (u64 k = 0; k + 8 <= bytes; k += 8) {
        memcpy(&word, at + k, 8);
        all += word;
    }
    for (u64 k = bytes / 8 * 8; k < bytes; k++) {
        all += at[k];
    }
    return all;
}

// Nanoseconds in which the four slices are read several times, as far as the dictionary uses them.
static const u64 *time_read(const u64 *at) {
    const u64 *header = (const u64 *)slices[0].at;
    u64 used[] = {96 + 96 * header[0], 24 * header[1], 8 * header[1], header[2]};
    u64 total[2] = {0, now()};
    for (u64 repeat = 0; repeat < at[1]; repeat++) {
        for (int k = 0; k < 4; k++) {
            total[0] += sum(slices[k].at, used[k]);
        }
        forget();
    }
    total[1] = now() - total[1];
    reply(total, 16);
    return at + 2;
}

static const u64 *lend_all(const u64 *at, void lend_one(struct lent *, u64, int)) {
    start_side = (int)at[1];
    for (int k = 0; k < SLICES; k++) {
        lend_one(&slices[k], at[2 + k], start_side);
    }
    return at + 2 + SLICES;
}

static const u64 *put_cells(const u64 *at) {
    struct lent *l = &slices[at[1]];
    if (at[2] + at[3] > l->count) {
        _exit(4);
    }
    put(l, at[2], at + 4, at[3]);
    return at + 4 + words(at[3] * l->unit);
}

static const u64 *fetch(const u64 *at) {
    for (int k = 0; k < SLICES; k++) {
        reply(slices[k].at, slices[k].count * slices[k].unit);
    }
    return at + 1;
}

static void make_all(void) {
    if (slices[0].low) {
        return;
    }
    for (int k = 0; k < SLICES; k++) {
        u64 unit = k < 3 ? 8 : 1;
        make_lent(&slices[k], k < 3 ? 8 * LARGEST : 2 * LARGEST, unit);
    }
    make_lent(&name, 4096, 1);
    make_lent(&vals, 1 << 16, 8);
    make_lent(&encodings, 1 << 19, 1);
    make_lent(&numbers, 4096, 8);
    make_lent(&out, 4096, 1);
    make_lent(&events, 1 << 19, 8);
}

void dictionary_batch(const u64 *at, const u64 *end) {
    make_all();
    while (at < end) {
        switch (*at) {
        case BEGIN:
            at = lend_all(at, lend_filled);
            break;
        case LEND:
            at = lend_all(at, lend);
            break;
        case PUT:
            at = put_cells(at);
            break;
        case FETCH:
            at = fetch(at);
            break;
        case TIME:
            at = time_call(at);
            break;
        case READ_THROUGH:
            at = time_read(at);
            break;
        default:
            at = make_call(at);
        }
    }
}
