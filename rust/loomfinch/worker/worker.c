// Makes calls of the library that come through a pipe, and sends back what they leave. For machines that are no x86-64: a
// program of the library's processor, which the crate starts on an emulator. src/emulated.rs is the other end.
//
// A request is words: how many follow, the function, and then the arguments: a form, a number or a length, and what a slice
// holds, filled up to whole words. The reply is the answer, and what the call left in each slice that it may change.

#include "loomfinch.h"

// Declared here: the machine need not have the C library's headers for x86-64.
long read(int file, void *to, size_t count);
long write(int file, const void *from, size_t count);
void *realloc(void *old, size_t count);
typedef void (*handler)(int);
handler signal(int number, handler to);
enum { SIGINT = 2 };
#define SIG_IGN ((handler)1)

// emulated.rs has the same numbers.
enum {
    DECODE,
    ENCODE,
    FROM_U64,
    TO_U64,
    NEW,
    INSERT,
    READ,
    READ_U8,
    READ_U16,
    READ_U32,
    READ_U64,
    FIND_BY_NAME,
    GET_CONFIGURED_CNS,
    INCREMENT_COUNTER,
    VALIDATE_PDO_MAPPING,
    WRITE,
    RESTORE_POWER_ON_VALUES,
    CONSUME_PDO_PAYLOAD,
    CONSUME_CYCLE,
    UPDATE_PDO_ERROR_OBJECT,
    CHECK,
    CHECK_ALL,
    EXPLAIN
};
enum { NUMBER, WORDS, BYTES, CHANGED_WORDS, CHANGED_BYTES };
enum { MOST_ARGUMENTS = 16 };

// A number, or a slice of so many elements.
struct argument {
    uint64_t form, number, *at;
};

#define N(k) a[k].number
#define W(k) a[k].at, a[k].number
#define B(k) (uint8_t *)a[k].at, a[k].number
#define DICTIONARY W(0), W(1), W(2), B(3)

static uint64_t answer(uint64_t function, const struct argument *a) {
    switch (function) {
    case DECODE:
        return loomfinch_decode(N(0), B(1), W(2), a[3].at, a[4].at);
    case ENCODE:
        return loomfinch_encode(N(0), N(1), B(2), B(3), a[4].at);
    case FROM_U64:
        return loomfinch_from_u64(N(0), W(1));
    case TO_U64:
        return loomfinch_to_u64((uint16_t)N(0), (uint8_t)N(1), (uint16_t)N(2), (uint16_t)N(3));
    case NEW:
        return loomfinch_new(W(0), N(1));
    case INSERT:
        return loomfinch_insert(DICTIONARY, (uint16_t)N(4), N(5), N(6), N(7), N(8), N(9), N(10), N(11), B(12), W(13), B(14));
    case READ:
        return loomfinch_read(DICTIONARY, (uint16_t)N(4), (uint8_t)N(5), W(6));
    case READ_U8:
        return loomfinch_read_u8(DICTIONARY, (uint16_t)N(4), (uint8_t)N(5), a[6].at);
    case READ_U16:
        return loomfinch_read_u16(DICTIONARY, (uint16_t)N(4), (uint8_t)N(5), a[6].at);
    case READ_U32:
        return loomfinch_read_u32(DICTIONARY, (uint16_t)N(4), (uint8_t)N(5), a[6].at);
    case READ_U64:
        return loomfinch_read_u64(DICTIONARY, (uint16_t)N(4), (uint8_t)N(5), a[6].at);
    case FIND_BY_NAME:
        return loomfinch_find_by_name(DICTIONARY, B(4), a[5].at);
    case GET_CONFIGURED_CNS:
        return loomfinch_get_configured_cns(DICTIONARY, B(4), a[5].at);
    case INCREMENT_COUNTER:
        return loomfinch_increment_counter(DICTIONARY, (uint16_t)N(4), (uint8_t)N(5));
    case VALIDATE_PDO_MAPPING:
        return loomfinch_validate_pdo_mapping(DICTIONARY, (uint16_t)N(4), (uint8_t)N(5));
    case WRITE:
        return loomfinch_write(DICTIONARY, B(4), (uint16_t)N(5), (uint8_t)N(6), N(7), B(8), a[9].at, a[10].at);
    case RESTORE_POWER_ON_VALUES:
        return loomfinch_restore_power_on_values(DICTIONARY, B(4), (uint16_t)N(5), (uint16_t)N(6));
    case CONSUME_PDO_PAYLOAD:
        return loomfinch_consume_pdo_payload(DICTIONARY, B(4), (uint8_t)N(5), (uint8_t)N(6), N(7), W(8), a[9].at);
    case CONSUME_CYCLE:
        return loomfinch_consume_cycle(DICTIONARY, B(4), W(5), W(6), a[7].at, a[8].at);
    case UPDATE_PDO_ERROR_OBJECT:
        return loomfinch_update_pdo_error_object(DICTIONARY, (uint16_t)N(4), (uint8_t)N(5));
    case CHECK:
        return loomfinch_check(DICTIONARY, (uint8_t)N(4), a[5].at);
    case CHECK_ALL:
        return loomfinch_check_all(DICTIONARY, W(4), a[5].at);
    default:
        return loomfinch_explain(DICTIONARY, (uint8_t)N(4), (uint8_t)N(5), W(6));
    }
}

// A pipe gives and takes what it has room for. 0 where it has been closed.
static int receive(void *to, size_t count) {
    for (uint8_t *at = to; count > 0;) {
        long moved = read(0, at, count);
        if (moved <= 0) {
            return 0;
        }
        at += moved;
        count -= (size_t)moved;
    }
    return 1;
}

static int send(const void *from, size_t count) {
    for (const uint8_t *at = from; count > 0;) {
        long moved = write(1, at, count);
        if (moved <= 0) {
            return 0;
        }
        at += moved;
        count -= (size_t)moved;
    }
    return 1;
}

static size_t words_of(const struct argument *a) {
    switch (a->form) {
    case NUMBER:
        return 0;
    case BYTES:
    case CHANGED_BYTES:
        return (a->number + 7) / 8;
    default:
        return a->number;
    }
}

// Takes a request apart; gives the number of its arguments.
static size_t take_apart(uint64_t *at, const uint64_t *end, struct argument *arguments) {
    size_t count = 0;
    for (; at < end && count < MOST_ARGUMENTS; count++) {
        struct argument *a = arguments + count;
        *a = (struct argument){at[0], at[1], at + 2};
        at += 2 + words_of(a);
    }
    return count;
}

static int reply(uint64_t number, const struct argument *arguments, size_t count) {
    if (!send(&number, sizeof number)) {
        return 0;
    }
    for (const struct argument *a = arguments; a < arguments + count; a++) {
        if (a->form >= CHANGED_WORDS && !send(a->at, 8 * words_of(a))) {
            return 0;
        }
    }
    return 1;
}

int main(void) {
    struct argument arguments[MOST_ARGUMENTS];
    uint64_t *request = 0;
    uint64_t length;
    // A terminal's Ctrl-C is meant for the program that called: it may have calls to make before it ends.
    signal(SIGINT, SIG_IGN);
    while (receive(&length, sizeof length)) {
        request = realloc(request, 8 * length);
        if (!request || !receive(request, 8 * length)) {
            return 1;
        }
        size_t count = take_apart(request + 1, request + length, arguments);
        if (!reply(answer(request[0], arguments), arguments, count)) {
            return 1;
        }
    }
    return 0;
}
