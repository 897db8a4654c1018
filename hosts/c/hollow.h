/* Headers with parts of no bytes, and what they are written from. */
#ifndef HOLLOW_H
#define HOLLOW_H

#include "compare.h"

/* a header without pairs whose key has empty parts only, in today's form and in the old one; one without a key as well, in both
 * forms, which is refused by 38; and one of version 2 whose pair and key have empty parts only, its ID and suite data all 00 */
static const uint8_t BARE[40] = {0x01, 0x80, 0x01, 0x78, 0, 1, 2, 3, 4, 5, 6, 7, 8, 9, 10, 11, 12, 13, 14, 15,
                                 0, 0, 0, 1, 0, 0, 0, 0, 0, 0, 0x02, 0, 0, 0, 0, 0x0C, 0, 0, 0x10, 0};
static const uint8_t OLD[42] = {0x01, 0x80, 0x01, 0x78, 0, 1, 2, 3, 4, 5, 6, 7, 8, 9, 10, 11, 12, 13, 14, 15,
                                0, 2, 0, 0, 0, 1, 0, 0, 0, 0, 0, 0, 0x02, 0, 0, 0, 0, 0x0C, 0, 0, 0x10, 0};
static const uint32_t BARE_keys[6] = {26, 0, 28, 0, 30, 0}, OLD_keys[6] = {28, 0, 30, 0, 32, 0};
static const uint8_t KEYLESS[34] = {0x01, 0x80, 0x01, 0x78, 0, 1, 2, 3, 4, 5, 6, 7, 8, 9, 10, 11, 12, 13, 14, 15,
                                    0, 0, 0, 0, 0x02, 0, 0, 0, 0, 0x0C, 0, 0, 0x10, 0};
static const uint8_t OLD_KEYLESS[36] = {0x01, 0x80, 0x01, 0x78, 0, 1, 2, 3, 4, 5, 6, 7, 8, 9, 10, 11, 12, 13, 14, 15,
                                        0, 2, 0, 0, 0, 0, 0x02, 0, 0, 0, 0, 0x0C, 0, 0, 0x10, 0};
static const uint8_t HOLLOW[88] = {[0] = 0x02, [1] = 0x05, [2] = 0x78, [36] = 6, [38] = 1, [44] = 1, [51] = 0x02, [54] = 0x10};
static const uint32_t HOLLOW_pairs[4] = {41, 0, 43, 0}, HOLLOW_keys[6] = {47, 0, 49, 0, 51, 0};

/* one of the headers, the places of its sections, its fields, and a key to find */
static const struct header {
    const uint8_t *bytes;
    size_t length;
    uint64_t context, keys;
    BafirolenNumbers numbers;
    size_t id, id_length, data, data_length, pair_numbers, key_numbers;
    const uint32_t *pair_table, *key_table;
    const char *key;
} headers[] = {{H, 58, 20, 34, {1, 0x80, 0x0178, 2, 12, 4096, 0}, 4, 16, 0, 0, 4, 6, H_pairs, H_keys, "lang"},
               {BARE, 40, 20, 22, {1, 0x80, 0x0178, 2, 12, 4096, 0}, 4, 16, 0, 0, 0, 6, H_pairs, BARE_keys, "lang"},
               {OLD, 42, 20, 24, {1, 0x80, 0x0178, 2, 12, 4096, 1}, 4, 16, 0, 0, 0, 6, H_pairs, OLD_keys, "lang"},
               {KEYLESS, 34, 20, 22, {1, 0x80, 0x0178, 2, 12, 4096, 0}, 4, 16, 0, 0, 0, 0, H_pairs, H_keys, "lang"},
               {OLD_KEYLESS, 36, 20, 24, {1, 0x80, 0x0178, 2, 12, 4096, 1}, 4, 16, 0, 0, 0, 0, H_pairs, H_keys, "lang"},
               {HOLLOW, 88, 35, 43, {2, 0, 0x0578, 2, 0, 4096, 0}, 3, 32, 56, 32, 4, 6, HOLLOW_pairs, HOLLOW_keys, ""}};

#endif
