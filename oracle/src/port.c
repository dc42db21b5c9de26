// Makes calls of the port that the driver lays out, and hands the memory back.
// A program of its own: the port's library is for x86-64, and the driver is
// for the machine that it runs on. Such a machine need not have the headers of
// x86-64, so that shims/c stands for them and functions are declared here.

#include "port.h"

long read(int file, void *to, u64 count);
long write(int file, void *from, u64 count);
void _exit(int status);
int setitimer(int clock, const void *time, void *old);
void (*signal(int number, void handler(int)))(int);

// port.rs has the same numbers.
enum { BEHIND = 8, LARGEST_BATCH = 1 << 18 };
enum { DECODE, ENCODE, FROM_U64, TO_U64, AGAIN, DECODE_EACH };

// Single numbers that decoding is lent for what it says of a fault: a place or
// the bytes needed, and the bytes had.
enum { SAID = 2 };

// What a batch holds is said by the top bits of its length.
enum { CODEC, DICTIONARY, KIND_SHIFT = 32 };
enum { ILLEGAL = 4, ABORT = 6, BUS = 7, ARITHMETIC = 8, SEGMENT = 11, TIME_OUT = 26 };

// A batch takes seconds; a call that runs on is stopped, as one that faults is. Only the program's
// own time counts: on a busy machine it may wait long for the driver to read.
enum { LONGEST_BATCH = 120, OWN_TIME = 1 };

// The lengths are those that are lent. Memory: numbers, output, input, each
// with BEHIND cells more and filled up to whole words.
struct call {
    u64 function, kind, word, input, out, numbers, said[SAID];
    u64 memory[];
};

static u64 words(u64 bytes) {
    return (bytes + BEHIND + 7) / 8;
}

static u64 to_u64(u64 index, u64 sub_index, u64 offset, u64 length) {
    return loomfinch_to_u64((u16)index, (u8)sub_index, (u16)offset, (u16)length);
}

static struct lent lent_numbers, lent_said, lent_out, lent_input;

static u64 decode(u64 kind) {
    u64 *said = (u64 *)lent_said.at;
    return loomfinch_decode(kind, lent_input.at, lent_input.count, (u64 *)lent_numbers.at,
                            lent_numbers.count, said, said + 1);
}

static u64 answer(const struct call *c) {
    u64 *numbers = (u64 *)lent_numbers.at;
    u8 *out = lent_out.at;
    const u8 *input = lent_input.at;
    switch (c->function) {
    case DECODE:
        return decode(c->kind);
    case ENCODE:
        return loomfinch_encode(c->kind, c->word, input, c->input, out, c->out, numbers);
    case FROM_U64:
        return loomfinch_from_u64(c->word, numbers, c->numbers);
    case TO_U64:
        return to_u64(c->word, c->word >> 16, c->word >> 32, c->word >> 48);
    default:
        loomfinch_from_u64(c->word, numbers, c->numbers);
        return to_u64(numbers[0], numbers[1], numbers[2], numbers[3]);
    }
}

// Whether memory was touched that no call may touch: what it only reads, and
// the cells around everything.
static u64 strays(void) {
    return (u64)(touched(&lent_input) | touched_around(&lent_numbers) | touched_around(&lent_said) |
                 touched_around(&lent_out));
}

// sweep.rs has the same.
static u64 folded(u64 sum, const void *lent, u64 count) {
    for (const u64 *number = lent; count > 0; number++, count--) {
        sum = ((sum << 5 | sum >> 59) ^ *number) * 0x517CC1B727220A95;
    }
    return sum;
}

// Decodes all data that are the call's input with `word` bytes of a set behind
// it, in the set's order; the set is given as the output. There are too many
// for a pipe, so that one sum over all that they leave stands for the answers.
static void decode_each(struct call *c, const u8 *set, const void *input, int at_start) {
    u8 bytes[BEHIND];
    u64 sum = 0, found = 0, all = 1;
    for (u64 k = 0; k < c->word; k++) {
        all *= c->out;
    }
    lend_given(&lent_input, input, c->input + c->word, at_start);
    for (u64 one = 0; one < all; one++) {
        for (u64 place = c->word, rest = one; place > 0; rest /= c->out) {
            bytes[--place] = set[rest % c->out];
        }
        put(&lent_input, c->input, bytes, c->word);
        lend_filled(&lent_numbers, c->numbers, at_start);
        lend_filled(&lent_said, SAID, at_start);
        u64 given = decode(c->kind);
        sum = folded(sum, &given, 1);
        sum = folded(sum, lent_numbers.at, c->numbers);
        sum = folded(sum, lent_said.at, SAID);
        found |= strays();
    }
    c->function = sum;
    c->kind = found;
}

// Makes a call with memory between guard pages; which of the two sides depends
// on the call, so that it is the same when it is made again. Puts the answer in
// the function's place, and in the type's place whether memory was touched that
// the call may not touch; gives the words that the call takes up.
static u64 make(struct call *c) {
    u64 *out = c->memory + c->numbers + BEHIND;
    u64 *input = out + words(c->out);
    u64 *end = input + words(c->input);
    int at_start = (c->kind + c->word + c->input + c->numbers + *input) % 2 == 1;
    if (c->function == DECODE_EACH) {
        decode_each(c, (const u8 *)out, input, at_start);
        return (u64)(end - (u64 *)c);
    }
    lend_given(&lent_numbers, c->memory, c->numbers, at_start);
    lend_given(&lent_said, c->said, SAID, at_start);
    lend_given(&lent_out, out, c->out, at_start);
    lend_given(&lent_input, input, c->input, at_start);
    c->function = answer(c);
    c->kind = strays();
    memcpy(c->memory, lent_numbers.at, 8 * c->numbers);
    memcpy(c->said, lent_said.at, 8 * SAID);
    memcpy(out, lent_out.at, c->out);
    return (u64)(end - (u64 *)c);
}

// A pipe gives and takes what it has room for. 0 where it has been closed.
static int whole(long move(int, void *, u64), int file, void *bytes, u64 count) {
    for (u8 *at = bytes; count > 0;) {
        long moved = move(file, at, count);
        if (moved <= 0) {
            return 0;
        }
        at += moved;
        count -= (u64)moved;
    }
    return 1;
}

static u8 waiting[1 << 20];
static u64 waiting_bytes;

void flush(void) {
    whole(write, 1, waiting, waiting_bytes);
    waiting_bytes = 0;
}

void reply(const void *from, u64 bytes) {
    u64 padded = (bytes + 7) / 8 * 8;
    if (waiting_bytes + padded > sizeof waiting) {
        flush();
    }
    memset(waiting + waiting_bytes + bytes, 0, padded - bytes);
    memcpy(waiting + waiting_bytes, from, bytes);
    waiting_bytes += padded;
}

// The driver gets the answers so far, and then an end: the call that stopped
// the program is the one that has none.
static void stopped(int signal_number) {
    flush();
    _exit(signal_number);
}

static void codec_batch(u64 *batch, u64 length) {
    for (u64 at = 0; at < length;) {
        at += make((struct call *)(batch + at));
    }
    whole(write, 1, batch, 8 * length);
}

// After 0 seconds never.
static void stop_after(long seconds) {
    const long time[] = {0, 0, seconds, 0};
    setitimer(OWN_TIME, time, 0);
}

int main(void) {
    static u64 batch[LARGEST_BATCH];
    const int stops[] = {ILLEGAL, ABORT, BUS, ARITHMETIC, SEGMENT, TIME_OUT};
    for (u64 k = 0; k < sizeof stops / sizeof *stops; k++) {
        signal(stops[k], stopped);
    }
    make_lent(&lent_numbers, 4096, 8);
    make_lent(&lent_said, 4096, 8);
    make_lent(&lent_out, 1 << 16, 1);
    make_lent(&lent_input, 1 << 16, 1);
    u64 head;
    while (whole(read, 0, &head, 8)) {
        u64 length = head & 0xFFFFFFFF;
        if (length > LARGEST_BATCH || !whole(read, 0, batch, 8 * length)) {
            return 1;
        }
        stop_after(LONGEST_BATCH);
        if (head >> KIND_SHIFT == CODEC) {
            codec_batch(batch, length);
        } else {
            dictionary_batch(batch, batch + length);
        }
        flush();
        stop_after(0);
    }
    return 0;
}
