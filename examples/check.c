/* Lays a rig with the calls of loomfinch_dictionary.h, checks its channel and consumes a payload: with a move time of two bytes mapped
 * onto two, with four bytes and with one mapped onto two, and with a payload that ends early. Then it writes captions, of which one is
 * no UTF-8, and times, of which one lies outside its range. At last it writes counts of the mapping, which edition 2 keeps.
 * examples/build builds it. */
#include "loomfinch_dictionary.h"

#include <stdio.h>

enum { OBJECTS = 8, VALUES = 16, BYTES = 64, CAPTION = 0x6100, CAPTION_ROOM = 20, MOVE_TIME = 0x6300, LONGEST_MOVE = 60000 };

static uint64_t objects[LOOMFINCH_OBJECTS_WORDS(OBJECTS)];
static uint64_t slots[LOOMFINCH_SLOTS_WORDS(VALUES)];
static uint64_t words[LOOMFINCH_WORDS_WORDS(VALUES)];
static uint8_t bytes[BYTES];

static struct loomfinch_dictionary rig = LOOMFINCH_DICTIONARY_OF(objects, slots, words, bytes);

#define LENGTH(slice) (sizeof(slice) / sizeof *(slice))

/* The type and the number of each end of a range that there is not. */
#define NO_RANGE 0, 0, 0, 0

/* No place and no count: what a number holds that no answer has set. */
static const uint64_t NOT_SET = ~(uint64_t)0;

/* Inserts an object of up to three numbers of one type; 0 where it is in. */
static uint64_t insert(uint16_t index, uint64_t kind, uint64_t type, const uint64_t *numbers, size_t count) {
    uint64_t values[3 * 3], written;
    uint8_t encodings[3 * 8];
    size_t length = 0;
    for (size_t k = 0; k < count; k++) {
        uint8_t *to = encodings + length;
        uint64_t answer = loomfinch_encode(type, numbers[k], bytes, 0, to, sizeof encodings - length, &written);
        if (answer != LOOMFINCH_DONE) {
            return answer;
        }
        values[3 * k] = type;
        values[3 * k + 1] = 0; /* a number needs no room for text */
        values[3 * k + 2] = written;
        length += written;
    }
    return loomfinch_dictionary_insert(&rig, index, kind, LOOMFINCH_ACCESS_NONE, 0, NO_RANGE, (const uint8_t *)"", 0, values,
                                       3 * count, encodings, length);
}

/* Channel 0 takes the payloads of node 5: a time at 6000h, in a field of so many bits, and a position at 6200h/3. */
static int lay_rig(uint64_t edition, uint16_t time_bits) {
    const uint64_t sender[] = {5, 0x10};
    const uint64_t mapping[] = {loomfinch_to_u64(0x6000, 0, 0, time_bits), loomfinch_to_u64(0x6200, 3, 16, 32)};
    const uint64_t nothing[] = {0, 0, 0};
    return loomfinch_dictionary_new_edition(&rig, edition) == LOOMFINCH_DONE &&
           insert(0x1400, LOOMFINCH_RECORD, LOOMFINCH_UNSIGNED8, sender, 2) == LOOMFINCH_DONE &&
           insert(0x1600, LOOMFINCH_ARRAY, LOOMFINCH_UNSIGNED64, mapping, 2) == LOOMFINCH_DONE &&
           insert(0x6000, LOOMFINCH_VARIABLE, LOOMFINCH_UNSIGNED16, nothing, 1) == LOOMFINCH_DONE &&
           insert(0x6200, LOOMFINCH_ARRAY, LOOMFINCH_UNSIGNED32, nothing, 3) == LOOMFINCH_DONE;
}

static void show_event(uint64_t event) {
    int element = (int)LOOMFINCH_EVENT_ELEMENT(event);
    switch (LOOMFINCH_EVENT_KIND(event)) {
    case LOOMFINCH_SHORT_FRAME:
        printf("  it ends before element %d\n", element);
        break;
    case LOOMFINCH_SHORT_VALUE:
        printf("  element %d needs %d bytes, and its field has %d\n", element, (int)LOOMFINCH_EVENT_NEEDED(event),
               (int)LOOMFINCH_EVENT_HAD(event));
        break;
    case LOOMFINCH_SHORT_TEXT:
        printf("  element %d is no UTF-8 at byte %d of its field\n", element, (int)LOOMFINCH_EVENT_PLACE(event));
        break;
    default:
        printf("  event at element %d\n", element);
    }
}

/* Checks the channel, and consumes a payload. */
static int show_payload(const uint8_t *payload, size_t length) {
    uint64_t events[LOOMFINCH_MOST_EVENTS], element, count, time, position;
    uint64_t answer = loomfinch_dictionary_check(&rig, 0, &element);
    if (loomfinch_dictionary_consume_pdo_payload(&rig, payload, length, 5, 0x12, 1, events, LENGTH(events), &count) ||
        loomfinch_dictionary_read_u16(&rig, 0x6000, 0, &time) || loomfinch_dictionary_read_u32(&rig, 0x6200, 3, &position)) {
        return 0;
    }
    if (answer == LOOMFINCH_DONE) {
        printf("  the check passes\n");
    } else if (element == 0) {
        printf("  the check says: %s\n", loomfinch_answer_name(answer));
    } else {
        printf("  the check says: %s at element %d\n", loomfinch_answer_name(answer), (int)element);
    }
    printf("  the payload gives %d events, the time %d and the position %d\n", (int)count, (int)time, (int)position);
    for (uint64_t k = 0; k < count; k++) {
        show_event(events[k]);
    }
    return 1;
}

static int show(uint16_t time_bits, const uint8_t *payload, size_t length) {
    printf("a time field of %d bits\n", time_bits);
    return lay_rig(LOOMFINCH_EDITION_1, time_bits) && show_payload(payload, length);
}

/* Writes a count of the mapping in edition 2, which keeps it: so many of the two elements are in use, and 0 turns the channel off. */
static int show_count(uint8_t count, const uint8_t *payload, size_t length) {
    uint8_t no_store[1];
    uint64_t place, had, kept;
    if (!lay_rig(LOOMFINCH_EDITION_2, 16) ||
        loomfinch_dictionary_write(&rig, no_store, 0, 0x1600, 0, LOOMFINCH_UNSIGNED8, &count, 1, &place, &had) ||
        loomfinch_dictionary_read_u8(&rig, 0x1600, 0, &kept)) {
        return 0;
    }
    printf("edition 2 with a count of %d\n", (int)kept);
    return show_payload(payload, length);
}

static int insert_caption(void) {
    const uint64_t empty[] = {LOOMFINCH_VISIBLE_STRING, CAPTION_ROOM, 0};
    return loomfinch_dictionary_insert(&rig, CAPTION, LOOMFINCH_VARIABLE, LOOMFINCH_ACCESS_NONE, 0, NO_RANGE,
                                       (const uint8_t *)"Caption", 7, empty, LENGTH(empty), bytes, 0) == LOOMFINCH_DONE;
}

/* Writes a caption, which needs no store, and shows at which byte it is no UTF-8. */
static void show_caption(const char *form, const uint8_t *caption, size_t length) {
    uint8_t no_store[1];
    uint64_t place = NOT_SET, had = NOT_SET;
    uint64_t answer = loomfinch_dictionary_write(&rig, no_store, 0, CAPTION, 0, LOOMFINCH_VISIBLE_STRING, caption, length, &place,
                                                 &had);
    printf("a caption in %s\n  the write says: %s", form, loomfinch_answer_name(answer));
    if (place != NOT_SET) {
        printf(" at byte %d", (int)place);
    }
    printf("\n");
}

static int insert_move_time(void) {
    const uint64_t number[] = {LOOMFINCH_UNSIGNED32, 0, 4};
    const uint8_t zero[4] = {0};
    return loomfinch_dictionary_insert(&rig, MOVE_TIME, LOOMFINCH_VARIABLE, LOOMFINCH_ACCESS_NONE, 0, LOOMFINCH_UNSIGNED32, 0,
                                       LOOMFINCH_UNSIGNED32, LONGEST_MOVE, (const uint8_t *)"Move time", 9, number, LENGTH(number),
                                       zero, sizeof zero) == LOOMFINCH_DONE;
}

/* Writes a move time, and shows whether its range lets it in. */
static void show_move_time(uint64_t milliseconds) {
    uint8_t no_store[1], encoding[4];
    uint64_t length, place, had;
    loomfinch_encode(LOOMFINCH_UNSIGNED32, milliseconds, bytes, 0, encoding, sizeof encoding, &length);
    uint64_t answer = loomfinch_dictionary_write(&rig, no_store, 0, MOVE_TIME, 0, LOOMFINCH_UNSIGNED32, encoding, length, &place, &had);
    printf("a move of %d ms, where %d is the longest\n  the write says: %s\n", (int)milliseconds, (int)LONGEST_MOVE,
           loomfinch_answer_name(answer));
}

int main(void) {
    const uint8_t two_and_a_half_seconds[] = {0xC4, 0x09, 0x10, 0x27, 0x00, 0x00};
    const uint8_t ninety_seconds[] = {0x90, 0x5F, 0x01, 0x00, 0x00, 0x00};
    const uint8_t utf_8[] = {'D', 0xC3, 0xA9, 'c', 'o', 'r'};
    const uint8_t latin_1[] = {'D', 0xE9, 'c', 'o', 'r'};
    if (!show(16, two_and_a_half_seconds, 6) || !show(32, ninety_seconds, 6) || !show(8, two_and_a_half_seconds, 6) ||
        !show(16, two_and_a_half_seconds, 5) || !insert_caption() || !insert_move_time()) {
        return 1;
    }
    show_caption("UTF-8", utf_8, sizeof utf_8);
    show_caption("Latin-1", latin_1, sizeof latin_1);
    show_move_time(LONGEST_MOVE);
    show_move_time(90000);
    return show_count(1, two_and_a_half_seconds, 6) && show_count(0, two_and_a_half_seconds, 6) ? 0 : 1;
}
