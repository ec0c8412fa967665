// Facts set by age, on heap blocks of exact length, and what holds of every answer.
#ifndef WINDOWS_H
#define WINDOWS_H

#include "calls.h"

// Six numbers stand before the list: year, month and day of the reading, and of today.
enum { DATES = 6 };

static inline uint64_t set_by_age(const uint32_t *dates, const uint32_t *list, size_t words, const uint8_t *table, size_t bytes, uint8_t *out, size_t room) {
    return vierskof_apply_windows(list, words, dates[0], dates[1], dates[2], dates[3], dates[4], dates[5], table, bytes, out, room);
}

static inline int field_of(const uint8_t *table, size_t fact) { return table[fact / 4] >> (6 - 2 * (fact % 4)) & 3; }

static inline int names_fact(const uint32_t *list, size_t words, size_t fact) {
    for (size_t i = 0; i < words; i += 2)
        if ((list[i] & 0x3FF) == fact) return 1;
    return 0;
}

// Of an accepted call: the list and the table are as they have to be, named facts have one of the three fields and with an unknown date Unknown, and
// every other fact keeps its field.
static inline void set_right(const uint32_t *dates, const uint32_t *list, size_t words, const uint8_t *table, size_t bytes, const uint8_t *out) {
    int unknown = !(dates[0] | dates[1] | dates[2]) || !(dates[3] | dates[4] | dates[5]);
    SO(words % 2 == 0 && words <= 2 * VIERSKOF_WINDOWS && bytes == VIERSKOF_TABLE_BYTES);
    for (size_t fact = 0; fact < 4 * bytes; fact++) {
        int field = field_of(out, fact), before = field_of(table, fact);
        SO(before != 3);
        SO(names_fact(list, words, fact) ? (field == 2) == unknown && field != 3 : field == before);
    }
}

// The order of the windows doesn't matter: the list from its last window to its first, which leaves a word without its pair in its place.
static inline void holds_backwards(const uint32_t *dates, const uint32_t *list, size_t words, const uint8_t *table, size_t bytes, size_t room, uint64_t told,
                                   const uint8_t *out) {
    uint32_t *back = copy(list, words * sizeof *back);
    uint8_t *also = block(room);
    for (size_t i = 0; i + 1 < words; i += 2) memcpy(back + i, list + words / 2 * 2 - 2 - i, 2 * sizeof *back);
    uint64_t again = set_by_age(dates, back, words, table, bytes, also, room);
    SO(again == told);
    SO(again >> 32 || memcmp(also, out, VIERSKOF_TABLE_BYTES) == 0);
    free(back);
    free(also);
}

// One call. `unset` is told of the output before it, and `left` of what it must not have written.
static inline uint32_t windows_hold(const uint32_t *given, size_t count, const uint8_t *table, size_t bytes, size_t room, void (*unset)(uint8_t *, size_t),
                                    void (*left)(uint8_t *, size_t)) {
    if (count < DATES) return 0;
    size_t words = count - DATES;
    uint32_t *list = copy(given + DATES, words * sizeof *list);
    uint8_t *own = copy(table, bytes), *out = block(room);
    for (size_t i = 0; i < room; i++) out[i] = (uint8_t)(0x5A ^ i);
    unset(out, room);
    uint64_t told = set_by_age(given, list, words, own, bytes, out, room);
    uint32_t number = (uint32_t)(told >> 32);
    size_t written = (uint32_t)told;
    SO(number == 0 || number == VIERSKOF_REFUSED_TABLE_FIELD || number == VIERSKOF_REFUSED_ROOM || number == VIERSKOF_REFUSED_DATE ||
       number == VIERSKOF_REFUSED_WINDOWS);
    SO(written == (number ? 0 : VIERSKOF_TABLE_BYTES) && written <= room);
    left(out + written, room - written);
    for (size_t i = written; i < room; i++) SO(out[i] == (uint8_t)(0x5A ^ i));
    SO(words == 0 || memcmp(list, given + DATES, words * sizeof *list) == 0);
    SO(bytes == 0 || memcmp(own, table, bytes) == 0);
    if (number == 0) set_right(given, list, words, own, bytes, out);
    holds_backwards(given, list, words, own, bytes, room, told, out);
    free(list);
    free(own);
    free(out);
    return number;
}

#endif
