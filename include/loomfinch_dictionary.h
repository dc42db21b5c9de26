/* A dictionary as one struct, with the calls of loomfinch.h over it: what a call needs of it is passed on, and nothing is added but
 * the edition by loomfinch_dictionary_new. Each call answers as the one of loomfinch.h with the same words in its name. */
#ifndef LOOMFINCH_DICTIONARY_H
#define LOOMFINCH_DICTIONARY_H

#include "loomfinch.h"

#ifdef __cplusplus
extern "C" {
#endif

/* The four slices that are lent; the struct owns none of them. */
struct loomfinch_dictionary {
    uint64_t *objects;
    size_t objects_len;
    uint64_t *slots;
    size_t slots_len;
    uint64_t *words;
    size_t words_len;
    uint8_t *bytes;
    size_t bytes_len;
};

/* The struct of four arrays, by their own lengths. */
#define LOOMFINCH_DICTIONARY_OF(objects, slots, words, bytes)                                                                        \
    {(objects), sizeof(objects) / sizeof *(objects), (slots), sizeof(slots) / sizeof *(slots),                                       \
     (words),   sizeof(words) / sizeof *(words),     (bytes), sizeof(bytes) / sizeof *(bytes)}

/* A dictionary as the arguments that the calls of loomfinch.h begin with. */
#define LOOMFINCH_LENT(d)                                                                                                            \
    (d)->objects, (d)->objects_len, (d)->slots, (d)->slots_len, (d)->words, (d)->words_len, (d)->bytes, (d)->bytes_len

/* Of edition 1. */
static inline uint64_t loomfinch_dictionary_new(struct loomfinch_dictionary *d) {
    return loomfinch_new(d->objects, d->objects_len, LOOMFINCH_EDITION_1);
}

static inline uint64_t loomfinch_dictionary_new_edition(struct loomfinch_dictionary *d, uint64_t edition) {
    return loomfinch_new(d->objects, d->objects_len, edition);
}

static inline uint64_t loomfinch_dictionary_insert(struct loomfinch_dictionary *d, uint16_t index, uint64_t kind, uint64_t access,
                                                   uint64_t has_default, uint64_t low_type, uint64_t low, uint64_t high_type,
                                                   uint64_t high, const uint8_t *name, size_t name_len, const uint64_t *vals,
                                                   size_t vals_len, const uint8_t *encodings, size_t encodings_len) {
    return loomfinch_insert(LOOMFINCH_LENT(d), index, kind, access, has_default, low_type, low, high_type, high, name, name_len, vals,
                            vals_len, encodings, encodings_len);
}

static inline uint64_t loomfinch_dictionary_read(const struct loomfinch_dictionary *d, uint16_t index, uint8_t sub_index,
                                                 uint64_t *numbers, size_t numbers_len) {
    return loomfinch_read(LOOMFINCH_LENT(d), index, sub_index, numbers, numbers_len);
}

static inline uint64_t loomfinch_dictionary_read_u8(const struct loomfinch_dictionary *d, uint16_t index, uint8_t sub_index,
                                                    uint64_t *number) {
    return loomfinch_read_u8(LOOMFINCH_LENT(d), index, sub_index, number);
}

static inline uint64_t loomfinch_dictionary_read_u16(const struct loomfinch_dictionary *d, uint16_t index, uint8_t sub_index,
                                                     uint64_t *number) {
    return loomfinch_read_u16(LOOMFINCH_LENT(d), index, sub_index, number);
}

static inline uint64_t loomfinch_dictionary_read_u32(const struct loomfinch_dictionary *d, uint16_t index, uint8_t sub_index,
                                                     uint64_t *number) {
    return loomfinch_read_u32(LOOMFINCH_LENT(d), index, sub_index, number);
}

static inline uint64_t loomfinch_dictionary_read_u64(const struct loomfinch_dictionary *d, uint16_t index, uint8_t sub_index,
                                                     uint64_t *number) {
    return loomfinch_read_u64(LOOMFINCH_LENT(d), index, sub_index, number);
}

static inline uint64_t loomfinch_dictionary_find_by_name(const struct loomfinch_dictionary *d, const uint8_t *name, size_t name_len,
                                                         uint64_t *index) {
    return loomfinch_find_by_name(LOOMFINCH_LENT(d), name, name_len, index);
}

static inline uint64_t loomfinch_dictionary_get_configured_cns(const struct loomfinch_dictionary *d, uint8_t *out, size_t out_len,
                                                               uint64_t *count) {
    return loomfinch_get_configured_cns(LOOMFINCH_LENT(d), out, out_len, count);
}

static inline uint64_t loomfinch_dictionary_increment_counter(struct loomfinch_dictionary *d, uint16_t index, uint8_t sub_index) {
    return loomfinch_increment_counter(LOOMFINCH_LENT(d), index, sub_index);
}

static inline uint64_t loomfinch_dictionary_write(struct loomfinch_dictionary *d, uint8_t *store, size_t store_len, uint16_t index,
                                                  uint8_t sub_index, uint64_t type_number, const uint8_t *data, size_t data_len,
                                                  uint64_t *place, uint64_t *had) {
    return loomfinch_write(LOOMFINCH_LENT(d), store, store_len, index, sub_index, type_number, data, data_len, place, had);
}

static inline uint64_t loomfinch_dictionary_validate_pdo_mapping(const struct loomfinch_dictionary *d, uint16_t index,
                                                                 uint8_t count) {
    return loomfinch_validate_pdo_mapping(LOOMFINCH_LENT(d), index, count);
}

static inline uint64_t loomfinch_dictionary_restore_power_on_values(struct loomfinch_dictionary *d, const uint8_t *store,
                                                                    size_t store_len, uint16_t first, uint16_t last) {
    return loomfinch_restore_power_on_values(LOOMFINCH_LENT(d), store, store_len, first, last);
}

static inline uint64_t loomfinch_dictionary_consume_pdo_payload(struct loomfinch_dictionary *d, const uint8_t *payload,
                                                                size_t payload_len, uint8_t sender, uint8_t version, uint64_t ready,
                                                                uint64_t *events, size_t events_len, uint64_t *count) {
    return loomfinch_consume_pdo_payload(LOOMFINCH_LENT(d), payload, payload_len, sender, version, ready, events, events_len, count);
}

static inline uint64_t loomfinch_dictionary_consume_cycle(struct loomfinch_dictionary *d, const uint8_t *delivered,
                                                          size_t delivered_len, const uint64_t *payloads, size_t payloads_len,
                                                          uint64_t *events, size_t events_len, uint64_t *consumed,
                                                          uint64_t *count) {
    return loomfinch_consume_cycle(LOOMFINCH_LENT(d), delivered, delivered_len, payloads, payloads_len, events, events_len, consumed,
                                   count);
}

static inline uint64_t loomfinch_dictionary_update_pdo_error_object(struct loomfinch_dictionary *d, uint16_t index, uint8_t node) {
    return loomfinch_update_pdo_error_object(LOOMFINCH_LENT(d), index, node);
}

static inline uint64_t loomfinch_dictionary_check(const struct loomfinch_dictionary *d, uint8_t channel, uint64_t *element) {
    return loomfinch_check(LOOMFINCH_LENT(d), channel, element);
}

static inline uint64_t loomfinch_dictionary_check_all(const struct loomfinch_dictionary *d, uint64_t *numbers, size_t numbers_len,
                                                      uint64_t *count) {
    return loomfinch_check_all(LOOMFINCH_LENT(d), numbers, numbers_len, count);
}

static inline uint64_t loomfinch_dictionary_explain(const struct loomfinch_dictionary *d, uint8_t channel, uint8_t element,
                                                    uint64_t *numbers, size_t numbers_len) {
    return loomfinch_explain(LOOMFINCH_LENT(d), channel, element, numbers, numbers_len);
}

#ifdef __cplusplus
}
#endif

#endif
