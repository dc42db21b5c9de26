/* The calls of libloomfinch.a (./library), for x86-64.
 *
 * Answers    A call answers a number of docs/RULES.md, 0 for done; a refusal changes no slice that was lent.
 * Numbers    A single number that is lent belongs to the answer: it is set where the answer has it, and else stays.
 * Null       A slice is a pointer and then a length in elements; the pointer is never null, also where the length is 0. Neither is
 *            a pointer to a single number.
 * Aliasing   What is lent to one call does not overlap: no two slices, no slice and a single number, no two single numbers.
 * Alignment  That of the element's type: 8 bytes for uint64_t, none for uint8_t.
 * Threads    The library has no memory of its own. Calls may run side by side where what one of them writes is lent to no other;
 *            calls that write nothing of a dictionary may share it.
 * Stack      No call needs more than 16 KB, as measured on the largest dictionary; none recurses by what it is given.
 * System     The x86-64 System V calling convention, so Linux, the BSDs and the like; memcpy and memset are the only symbols that
 *            must be there. No call allocates, waits, or asks the system for anything.
 */
#ifndef LOOMFINCH_H
#define LOOMFINCH_H

#include <stddef.h>
#include <stdint.h>

#ifdef __cplusplus
extern "C" {
#endif

/* The version of this header and of the library that it belongs to. */
#define LOOMFINCH_VERSION_MAJOR 0
#define LOOMFINCH_VERSION_MINOR 4
#define LOOMFINCH_VERSION_PATCH 0
#define LOOMFINCH_VERSION "0.4.0"

enum {
    LOOMFINCH_DONE = 0,
    LOOMFINCH_MALFORMED = 1,
    LOOMFINCH_BAD_VALUE = 2,
    LOOMFINCH_OBJECT_NOT_FOUND = 3,
    LOOMFINCH_SUB_OBJECT_NOT_FOUND = 4,
    LOOMFINCH_TYPE_MISMATCH = 5,
    LOOMFINCH_READ_ONLY = 6,
    LOOMFINCH_BAD_SIGNATURE = 7,
    LOOMFINCH_NO_STORAGE = 8,
    LOOMFINCH_COUNT_NOT_WRITABLE = 9,
    LOOMFINCH_MISSING_ENTRIES = 10,
    LOOMFINCH_PDO_MAP_OVERRUN = 11,
    LOOMFINCH_BUFFER_TOO_SHORT = 12,
    LOOMFINCH_TOO_LONG = 13,
    LOOMFINCH_PAYLOAD_TOO_LONG = 14,
    LOOMFINCH_NO_EVENT_ROOM = 15,
    LOOMFINCH_OCCUPIED = 16,
    LOOMFINCH_FULL = 17,
    LOOMFINCH_STORE_FULL = 18,
    LOOMFINCH_RESTORE_REQUESTED = 19, /* no refusal */
    LOOMFINCH_OUT_OF_RANGE = 21
};

/* The types of values, by their numbers; VisibleString to Domain are strings, which need room. */
enum {
    LOOMFINCH_BOOLEAN = 0,
    LOOMFINCH_INTEGER8 = 1,
    LOOMFINCH_INTEGER16 = 2,
    LOOMFINCH_INTEGER32 = 3,
    LOOMFINCH_INTEGER64 = 4,
    LOOMFINCH_UNSIGNED8 = 5,
    LOOMFINCH_UNSIGNED16 = 6,
    LOOMFINCH_UNSIGNED32 = 7,
    LOOMFINCH_UNSIGNED64 = 8,
    LOOMFINCH_REAL32 = 9,
    LOOMFINCH_REAL64 = 10,
    LOOMFINCH_VISIBLE_STRING = 11,
    LOOMFINCH_OCTET_STRING = 12,
    LOOMFINCH_UNICODE_STRING = 13,
    LOOMFINCH_DOMAIN = 14,
    LOOMFINCH_TIME_OF_DAY = 15,
    LOOMFINCH_TIME_DIFFERENCE = 16,
    LOOMFINCH_NET_TIME = 17,
    LOOMFINCH_RELATIVE_TIME = 18,
    LOOMFINCH_MAC_ADDRESS = 19,
    LOOMFINCH_IP_ADDRESS = 20
};

/* The kinds of objects, and who may write one. */
enum { LOOMFINCH_VARIABLE = 0, LOOMFINCH_ARRAY = 1, LOOMFINCH_RECORD = 2 };
enum {
    LOOMFINCH_ACCESS_READ_ONLY = 0,
    LOOMFINCH_ACCESS_WRITE_ONLY = 1,
    LOOMFINCH_ACCESS_WRITE_ONLY_STORE = 2,
    LOOMFINCH_ACCESS_READ_WRITE = 3,
    LOOMFINCH_ACCESS_READ_WRITE_STORE = 4,
    LOOMFINCH_ACCESS_CONSTANT = 5,
    LOOMFINCH_ACCESS_CONDITIONAL = 6,
    LOOMFINCH_ACCESS_NONE = 7
};

/* The editions of the mapping rules: 1 is powerlink-rs's, and 2 keeps the count of a mapping, as EPSG DS 301 has it. */
enum { LOOMFINCH_EDITION_1 = 1, LOOMFINCH_EDITION_2 = 2 };

/* How many numbers a call needs room for. */
enum {
    LOOMFINCH_DECODE_NUMBERS = 7,
    LOOMFINCH_FROM_U64_NUMBERS = 9,
    LOOMFINCH_READ_NUMBERS = 3,
    LOOMFINCH_CHECK_ALL_NUMBERS = 768,
    LOOMFINCH_EXPLAIN_NUMBERS = 11
};

/* What a dictionary of n objects with v values and defaults and b bytes of names, rooms and defaults takes. */
#define LOOMFINCH_OBJECTS_WORDS(n) (12 * (n) + 12)
#define LOOMFINCH_SLOTS_WORDS(v) (3 * (v))
#define LOOMFINCH_WORDS_WORDS(v) (v)

/* The most that a dictionary has of each. */
enum { LOOMFINCH_MOST_OBJECTS = 1024, LOOMFINCH_MOST_VALUES = 6144, LOOMFINCH_MOST_BYTES = 32768 };

/* The longest stored image: a store of so many bytes is full by its own bounds only. */
enum { LOOMFINCH_MOST_STORED = 32770 };

/* Decodes the value of type 0..20 that the data begins with.
 * Answers 2 for no such type; 5 for a VisibleString that is not UTF-8 or a UnicodeString of an odd count; 12 for fewer bytes
 * than the type has, or fewer than 7 numbers; in this order.
 * 5 for a VisibleString: *place is the place, from 0, of the first byte at which no UTF-8 goes on, or the data's length where it
 * only ends too early. In E2 82 41 that is 2: a text may begin with E2 82, and none goes on with 41.
 * 12 for fewer bytes than the type has: *place is how many it has, and *had how many are there.
 * Else both stay: whoever puts UINT64_MAX there before the call knows which of them the answer has.
 * Done: numbers[0] is the value's word, numbers[1] to numbers[6] its parts, 0 where it has fewer; those behind stay.
 * The word is the little-endian number of a fixed type's bytes, or the length of a text or of bytes, which is the data itself.
 * Parts: an integer in 64 bits two's complement; a real's bits; TimeOfDay and TimeDifference ms, days; NetTime seconds,
 * nanoseconds; an address byte by byte; of any other type the word. */
uint64_t loomfinch_decode(uint64_t type_number, const uint8_t *data, size_t data_len, uint64_t *numbers, size_t numbers_len,
                          uint64_t *place, uint64_t *had);

/* Encodes the value that a type and a word say; the part is the text or the bytes of types 11..14 and ignored for others.
 * Answers 2 for no such type, a word that is no number of the type's size, a word that is not the part's length, a
 * VisibleString that is not UTF-8, a UnicodeString of an odd count; 12 for an output shorter than the encoding.
 * Done: the encoding lies at the output's start, bytes behind it stay, and *written is its length. */
uint64_t loomfinch_encode(uint64_t type_number, uint64_t word, const uint8_t *part, size_t part_len, uint8_t *out,
                          size_t out_len, uint64_t *written);

/* Takes a mapping word apart. Answers 12 for fewer than 9 numbers.
 * Done: index, sub-index, offset in bits, length in bits; 1 and the offset in bytes, or 0 and 0 where it is not whole bytes;
 * the same for the length; the field's end in bytes, rounded up. Numbers behind stay. */
uint64_t loomfinch_from_u64(uint64_t word, uint64_t *numbers, size_t numbers_len);

/* The mapping word of an index, a sub-index, an offset and a length in bits. Never refuses. */
uint64_t loomfinch_to_u64(uint16_t index, uint8_t sub_index, uint16_t offset_bits, uint16_t length_bits);

/* The dictionary is four lent slices: objects (a header and the rows), slots (type, start and size of each value's room), words
 * (a number for each value: a fixed type's bits or a string's length) and bytes (names, rooms and defaults). Only these calls
 * write them. They may be longer than needed; what lies behind the used part stays and is not looked at. Every call below but
 * loomfinch_new judges the four first and answers 1 where they are no dictionary.
 * An index is 0..FFFFh and a sub-index 0..255. A list's sub-index 0 is the count of its elements.
 * A dictionary has an edition, for good. A mapping is a list at 1600h..16FFh or 1A00h..1AFFh; in edition 2 it has a kept count n,
 * which insertion starts as the number of its elements and loomfinch_write alone changes. Its first n elements are in use; those
 * behind are read, written, saved and restored as others, and are neither consumed nor checked. A kept count is not saved, and
 * stays when values are restored. In edition 1, and of any other list, all elements are in use.
 * loomfinch_dictionary.h has the four as one struct, and the calls over it. */

/* Makes an empty dictionary of an edition, as named above: lays the header, 12 words; the words behind it stay, and the other
 * slices need no preparation. Answers 1 for another edition than 1 or 2; 17 for fewer than 12 words; in this order. */
uint64_t loomfinch_new(uint64_t *objects, size_t objects_len, uint64_t edition);

/* Inserts an object of a kind and an access, as named above. The values are a Variable's one value or a list's elements, then the
 * default where has_default is 1. Each takes three numbers of vals: its type 0..20, the size of its room (a default's: just its
 * length for types 11..14, else 0), and the byte count of its encoding; the encodings lie back to back.
 * The range is the least and the greatest number that loomfinch_write puts where the type is the range's; four numbers 0 are none. An
 * end is its type, 1..8, and the number of its bytes: -1 of Integer8 is 0xFF. The values given here are not held against it.
 * Answers 1; 2 where a rule for objects is broken, has_default is above 1 or has no value, vals_len is no multiple of 3, the
 * byte counts do not add up to encodings_len, or of the range the types differ or are no integers', an end is no number of its type,
 * or low means more than high; 16 where the index is taken; 17 where the dictionary's bounds or the lent slices have no room for it;
 * in this order.
 * Done: the object is in its place, what comes behind it has moved up, and each other object keeps its name, values and rooms;
 * bytes of the new rooms behind their values are 0. */
uint64_t loomfinch_insert(uint64_t *objects, size_t objects_len, uint64_t *slots, size_t slots_len, uint64_t *words,
                          size_t words_len, uint8_t *bytes, size_t bytes_len, uint16_t index, uint64_t kind, uint64_t access,
                          uint64_t has_default, uint64_t low_type, uint64_t low, uint64_t high_type, uint64_t high,
                          const uint8_t *name, size_t name_len, const uint64_t *vals, size_t vals_len,
                          const uint8_t *encodings, size_t encodings_len);

/* Reads a value. Answers 1; 3 for no such object; 4 for no such element; 12 for fewer than 3 numbers; in this order.
 * Done: numbers[0] is the value's type, numbers[1] its word, and numbers[2] where its room starts: for types 11..14 the value
 * is the numbers[1] bytes at bytes + numbers[2]. A list's count has type 5 and start 0; of a mapping in edition 2 it is the kept
 * count. Numbers behind stay. */
uint64_t loomfinch_read(const uint64_t *objects, size_t objects_len, const uint64_t *slots, size_t slots_len,
                        const uint64_t *words, size_t words_len, const uint8_t *bytes, size_t bytes_len, uint16_t index,
                        uint8_t sub_index, uint64_t *numbers, size_t numbers_len);

/* Reads a number of one type. Answers 1; 3; 4; 5 for a value of another type; in this order. Done: *number is it. */
uint64_t loomfinch_read_u8(const uint64_t *objects, size_t objects_len, const uint64_t *slots, size_t slots_len,
                           const uint64_t *words, size_t words_len, const uint8_t *bytes, size_t bytes_len, uint16_t index,
                           uint8_t sub_index, uint64_t *number);
uint64_t loomfinch_read_u16(const uint64_t *objects, size_t objects_len, const uint64_t *slots, size_t slots_len,
                            const uint64_t *words, size_t words_len, const uint8_t *bytes, size_t bytes_len, uint16_t index,
                            uint8_t sub_index, uint64_t *number);
uint64_t loomfinch_read_u32(const uint64_t *objects, size_t objects_len, const uint64_t *slots, size_t slots_len,
                            const uint64_t *words, size_t words_len, const uint8_t *bytes, size_t bytes_len, uint16_t index,
                            uint8_t sub_index, uint64_t *number);
uint64_t loomfinch_read_u64(const uint64_t *objects, size_t objects_len, const uint64_t *slots, size_t slots_len,
                            const uint64_t *words, size_t words_len, const uint8_t *bytes, size_t bytes_len, uint16_t index,
                            uint8_t sub_index, uint64_t *number);

/* Finds the lowest index of a name, which names sub-index 0. Answers 1; 2 for a name over 32 bytes or not UTF-8; 3 for no
 * object of that name; in this order. Done: *index is it. */
uint64_t loomfinch_find_by_name(const uint64_t *objects, size_t objects_len, const uint64_t *slots, size_t slots_len,
                                const uint64_t *words, size_t words_len, const uint8_t *bytes, size_t bytes_len,
                                const uint8_t *name, size_t name_len, uint64_t *index);

/* Lists the configured nodes: the numbers of those elements of the Array 1F81h that are Unsigned32 with bit 0 set and bit 8
 * clear, rising; none where 1F81h is no Array. Answers 1; 12 for an output shorter than the list; in this order.
 * Done: the list lies at the output's start, bytes behind it stay, and *count is its length, at most 254. */
uint64_t loomfinch_get_configured_cns(const uint64_t *objects, size_t objects_len, const uint64_t *slots, size_t slots_len,
                                      const uint64_t *words, size_t words_len, const uint8_t *bytes, size_t bytes_len,
                                      uint8_t *out, size_t out_len, uint64_t *count);

/* Adds 1 modulo 2^32 to an Unsigned32 that is a Variable or a Record's element; elsewhere nothing happens, and that is Done
 * too. Answers 1. */
uint64_t loomfinch_increment_counter(const uint64_t *objects, size_t objects_len, const uint64_t *slots, size_t slots_len,
                                     uint64_t *words, size_t words_len, const uint8_t *bytes, size_t bytes_len, uint16_t index,
                                     uint8_t sub_index);

/* Writes a value, given as its type and its encoding. The store is lent memory that keeps an image of saved values; a store under
 * 2 bytes is none. Answers, in this order: 1; 2 where the data is not just a value of the type. At index 1010h: 7 unless it is the
 * VisibleString "save" at a sub-index above 0; 8 for no store; then the values of the list that the sub-index names are saved, or
 * 18 where the store cannot hold them. At 1011h likewise with "load", and then 19. Else: 5 for a mapping's count (sub-index 0 of
 * 1600h..16FFh, 1A00h..1AFFh) that is no Unsigned8, and what loomfinch_validate_pdo_mapping answers for it; 3; 6 for access 0
 * and 5; 4; 9 for the count of a list that is no mapping; 5 for another type than the one there; 21 for a number outside the
 * object's range, where that is of its type; 13 for a string longer than its room.
 * 2 for a VisibleString that is not UTF-8 sets *place, and 2 for fewer bytes than the type has *place and *had, as loomfinch_decode
 * does. Else both stay: also where a fixed type's data is too long, and where a UnicodeString's count is odd.
 * Done: the value is put, and bytes in its room behind it stay. A mapping's count is kept in edition 2, which changes one word of
 * `objects` and nothing else: 0 turns the mapping off, a Record's for good, since a Record takes no other count. In edition 1 it is
 * accepted and not kept. No other write changes `objects`. A refusal and 19 change nothing. */
uint64_t loomfinch_write(uint64_t *objects, size_t objects_len, const uint64_t *slots, size_t slots_len, uint64_t *words,
                         size_t words_len, uint8_t *bytes, size_t bytes_len, uint8_t *store, size_t store_len, uint16_t index,
                         uint8_t sub_index, uint64_t type_number, const uint8_t *data, size_t data_len, uint64_t *place,
                         uint64_t *had);

/* May the first `count` elements of the mapping at an index be used, be they in use or not? Answers 1; then 0 for a count of 0 or
 * another index than a mapping's; 3 where there is no Array; 10 where one of them is missing or no Unsigned64; 11 where one of them
 * ends behind the Unsigned16 at 1F98h/1 (1A00h..1AFFh) or 1F98h/2 (1600h..16FFh), or behind 1490 bytes where there is none. */
uint64_t loomfinch_validate_pdo_mapping(const uint64_t *objects, size_t objects_len, const uint64_t *slots, size_t slots_len,
                                        const uint64_t *words, size_t words_len, const uint8_t *bytes, size_t bytes_len,
                                        uint16_t index, uint8_t count);

/* Restores the values of the objects from index `first` to index `last`, 1003h left out: the value that the store's image keeps
 * for exactly its place, of whatever type; else the object's default, at a Variable always and at a list's element where the
 * types agree; else the value stays. A store without a readable image keeps nothing. First above last: Done. Answers 1; 13 where
 * a string is longer than the room that it would be put into, and then nothing is put. This is the one call that changes a
 * value's type: `slots` is written too. The store stays. */
uint64_t loomfinch_restore_power_on_values(const uint64_t *objects, size_t objects_len, uint64_t *slots, size_t slots_len,
                                           uint64_t *words, size_t words_len, uint8_t *bytes, size_t bytes_len,
                                           const uint8_t *store, size_t store_len, uint16_t first, uint16_t last);

/* An event is one number. Its kind says what happened, its element where: the place in the mapping list, from 1, or 0 with
 * LOOMFINCH_MAP_VERSION. Of what is handed to SDO it has the index, and where the field starts in the payload and its length, in
 * bytes. Of a value that is too short it has the bytes needed and those that the field had, of a bad text the place of the first
 * byte, from 0 within the field, at which no UTF-8 goes on, or the field's length where it only ends too early. What an event does
 * not have is 0. The payload's number is its place in a cycle, from 0, and 0 for a single payload. */
enum {
    LOOMFINCH_MAP_VERSION = 1,
    LOOMFINCH_SHORT_FRAME = 2, /* the field ends past the payload: the run stops */
    LOOMFINCH_SHORT_VALUE = 3, /* the field has fewer bytes than the value's type: the run stops */
    LOOMFINCH_SHORT_TEXT = 4,  /* not UTF-8: the run stops */
    LOOMFINCH_SHORT_ODD = 5,   /* a UnicodeString of an odd count: the run stops */
    LOOMFINCH_TO_SERVER = 6,
    LOOMFINCH_TO_CLIENT = 7,
    LOOMFINCH_COUNT_REFUSED = 8, /* the target is a list's count */
    LOOMFINCH_VALUE_REFUSED = 9  /* a string longer than its room */
};
#define LOOMFINCH_EVENT_KIND(e) ((uint64_t)(e) & 0xF)
#define LOOMFINCH_EVENT_ELEMENT(e) ((uint64_t)(e) >> 4 & 0xFF)
#define LOOMFINCH_EVENT_INDEX(e) ((uint64_t)(e) >> 12 & 0xFFFF)
#define LOOMFINCH_EVENT_START(e) ((uint64_t)(e) >> 28 & 0x1FFF)
#define LOOMFINCH_EVENT_LENGTH(e) ((uint64_t)(e) >> 41 & 0x1FFF)
#define LOOMFINCH_EVENT_PAYLOAD(e) ((uint64_t)(e) >> 54)
/* The same numbers by what they are: of LOOMFINCH_SHORT_VALUE the bytes needed and had, of LOOMFINCH_SHORT_TEXT the place. */
#define LOOMFINCH_EVENT_NEEDED(e) LOOMFINCH_EVENT_START(e)
#define LOOMFINCH_EVENT_HAD(e) LOOMFINCH_EVENT_LENGTH(e)
#define LOOMFINCH_EVENT_PLACE(e) LOOMFINCH_EVENT_START(e)

/* The most events of one payload, and the most payloads and bytes of one that a call takes. */
enum { LOOMFINCH_MOST_EVENTS = 254, LOOMFINCH_MOST_PAYLOADS = 1024, LOOMFINCH_MOST_PAYLOAD_BYTES = 1490 };

/* Consumes a received payload: the first of the channels 0..255 whose record 1400h+i names the sender, its version, and then the
 * mapping words of 1600h+i, each field decoded and put at its target without an access test (docs/RULES.md 11). Ready: 0 is not
 * ready, and nothing happens; any other number is ready. Answers 1; 15 for fewer than 254 events; 14 for a payload over 1490 bytes;
 * in this order.
 * Done: *count is the number of events, which lie from events[0] on, and those behind stay. A run that stops half-way is Done too:
 * the fields before the stop are put, and the last event says why it stopped. LOOMFINCH_SHORT_FRAME sets the sender's bit in 1C81h,
 * and in edition 2 so does LOOMFINCH_SHORT_VALUE; LOOMFINCH_MAP_VERSION sets it in 1C80h. Edition 2 takes the words of elements in
 * use alone: a mapping that is turned off has its version held against the payload's, and puts nothing. A count that a payload
 * brings is kept in neither edition. */
uint64_t loomfinch_consume_pdo_payload(const uint64_t *objects, size_t objects_len, const uint64_t *slots, size_t slots_len,
                                       uint64_t *words, size_t words_len, uint8_t *bytes, size_t bytes_len,
                                       const uint8_t *payload, size_t payload_len, uint8_t sender, uint8_t version,
                                       uint64_t ready, uint64_t *events, size_t events_len, uint64_t *count);

/* Consumes the payloads of a cycle, one after another; the dictionary is judged once. Each payload takes five numbers of `payloads`:
 * where it starts in `delivered`, its length, sender, version and ready. Answers 1; 2 where payloads_len is no multiple of 5 or above
 * 5 * 1024, a payload does not lie within what was delivered, or a sender or version is above 255; 14 for a payload over 1490 bytes;
 * in this order, and before any payload is consumed.
 * Done: each payload was consumed as loomfinch_consume_pdo_payload would, on the dictionary that those before it left, up to the
 * first one, ready or not, that had fewer than 254 free events. *consumed is how many were, and *count the number of their events. */
uint64_t loomfinch_consume_cycle(const uint64_t *objects, size_t objects_len, const uint64_t *slots, size_t slots_len,
                                 uint64_t *words, size_t words_len, uint8_t *bytes, size_t bytes_len,
                                 const uint8_t *delivered, size_t delivered_len, const uint64_t *payloads, size_t payloads_len,
                                 uint64_t *events, size_t events_len, uint64_t *consumed, uint64_t *count);

/* Sets the bit of a node, 1..239, in the error object at an index, where that is an OctetString Variable which now has the byte
 * (node - 1) / 8; else nothing happens, and that is Done too. Answers 1. */
uint64_t loomfinch_update_pdo_error_object(const uint64_t *objects, size_t objects_len, const uint64_t *slots, size_t slots_len,
                                           const uint64_t *words, size_t words_len, uint8_t *bytes, size_t bytes_len,
                                           uint16_t index, uint8_t node);

/* Answers of loomfinch_check beside 0, pass, and 1. */
enum {
    LOOMFINCH_NO_SENDER = 31,    /* no sender has this channel */
    LOOMFINCH_NO_LIST = 32,      /* its mapping 1600h+channel is no list with an element in use */
    LOOMFINCH_NOT_MAPPING = 33,  /* the element is no Unsigned64 */
    LOOMFINCH_MISALIGNED = 34,   /* its offset or length is not whole bytes */
    LOOMFINCH_HAND_OFF = 35,     /* its target is 1200h..12FFh */
    LOOMFINCH_NO_TARGET = 36,    /* its target is missing */
    LOOMFINCH_COUNT_TARGET = 37, /* its target is a list's count */
    LOOMFINCH_WRONG_LENGTH = 38, /* not the size of the target's type; of a string: over its room, or odd for a UnicodeString */
    LOOMFINCH_TOO_FAR = 39       /* the elements reach past 1490 bytes */
};

/* Checks a channel, and changes nothing in the dictionary. Passes exactly when the channel maps at least one field, some payload can
 * fill it, and every ready payload that it accepts, long enough and with well-formed text, has each mapped field written whole, in
 * mapping order, with no event and nothing else changed; a pass holds until a restore, or until 1400h+channel or 1600h+channel
 * change, the count that is kept of the latter too. Only elements in use are checked. Answers 1; else 0 for a pass or the first
 * fault, and *element is the place of the element that it names, or 0. */
uint64_t loomfinch_check(const uint64_t *objects, size_t objects_len, const uint64_t *slots, size_t slots_len,
                         const uint64_t *words, size_t words_len, const uint8_t *bytes, size_t bytes_len, uint8_t channel,
                         uint64_t *element);

/* Checks every channel that has an object 1400h+channel, after one judgement of the dictionary. Answers 1; 12 for fewer than 768
 * numbers; in this order. Done: three numbers for each such channel, rising: the channel, what loomfinch_check answers for it, and the
 * element; *count is the number of all these numbers, and those behind stay. */
uint64_t loomfinch_check_all(const uint64_t *objects, size_t objects_len, const uint64_t *slots, size_t slots_len,
                             const uint64_t *words, size_t words_len, const uint8_t *bytes, size_t bytes_len,
                             uint64_t *numbers, size_t numbers_len, uint64_t *count);

/* What there is at an element's index and sub-index. */
enum { LOOMFINCH_NO_OBJECT = 0, LOOMFINCH_NO_SUB_OBJECT = 1, LOOMFINCH_A_COUNT = 2, LOOMFINCH_A_VALUE = 3 };

/* Explains an element, from 1, of the list 1600h+channel, in use or not: what it maps, and onto what. Answers 1; 3 where
 * 1600h+channel is no list; 4 for no such element; 12 for fewer than 11 numbers; in this order.
 * Done: numbers[0] is what loomfinch_check says of the element by itself, 0 or 33 to 38; [1] the element's type, and where that is not 8
 * the rest is 0; [2] the index, [3] the sub-index, [4] the offset and [5] the length in bits; [6] the offset and [7] the length in bytes,
 * both 0 where one is not whole bytes; [8] what is there; [9] its type and [10] how many bytes it holds: its type's size, or a string's
 * room; 0 where nothing is there. Numbers behind stay. */
uint64_t loomfinch_explain(const uint64_t *objects, size_t objects_len, const uint64_t *slots, size_t slots_len,
                           const uint64_t *words, size_t words_len, const uint8_t *bytes, size_t bytes_len, uint8_t channel,
                           uint8_t element, uint64_t *numbers, size_t numbers_len);

/* The name that docs/RULES.md gives an answer, of a refusal, a fault of the check or neither; "?" for any other number. */
static inline const char *loomfinch_answer_name(uint64_t answer) {
    static const char *const refusals[] = {
        "Done",          "Malformed",      "BadValue",       "ObjectNotFound", "SubObjectNotFound",
        "TypeMismatch",  "ReadOnly",       "BadSignature",   "NoStorage",      "CountNotWritable",
        "MissingEntries", "PdoMapOverrun", "BufferTooShort", "TooLong",        "PayloadTooLong",
        "NoEventRoom",   "Occupied",       "Full",           "StoreFull",      "RestoreRequested",
        "?",             "OutOfRange"};
    static const char *const faults[] = {"NoSender", "NoList",   "NotMapping",  "Misaligned", "HandOff",
                                         "NoTarget", "CountTarget", "WrongLength", "TooFar"};
    if (answer <= LOOMFINCH_OUT_OF_RANGE) {
        return refusals[answer];
    }
    if (answer >= LOOMFINCH_NO_SENDER && answer <= LOOMFINCH_TOO_FAR) {
        return faults[answer - LOOMFINCH_NO_SENDER];
    }
    return "?";
}

#ifdef __cplusplus
}
#endif

#endif
