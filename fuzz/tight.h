// Sheets and records packed and unpacked, on heap blocks of exact length, and what holds of every answer.
#ifndef TIGHT_H
#define TIGHT_H

#include "calls.h"

// What words or bytes are taken for.
enum form { SHEET_FORM, RECORD_FORM };

// Told of an output before a call, and of what the call must not have written.
typedef void (*told_of)(uint8_t *bytes, size_t count);

static inline uint64_t packed(enum form form, const uint32_t *words, size_t count, uint8_t *out, size_t room) {
    return (form == SHEET_FORM ? vierskof_pack_sheet : vierskof_pack_record)(words, count, out, room);
}

static inline uint64_t unpacked(enum form form, const uint8_t *bytes, size_t count, uint32_t *out, size_t room) {
    return (form == SHEET_FORM ? vierskof_unpack_sheet : vierskof_unpack_record)(bytes, count, out, room);
}

// Bytes of an output before a call: another one at each place.
static inline uint8_t before_at(size_t place) { return (uint8_t)(0x5A ^ place); }

static inline void *before(size_t bytes, told_of unset) {
    uint8_t *out = block(bytes);
    for (size_t i = 0; i < bytes; i++) out[i] = before_at(i);
    unset(out, bytes);
    return out;
}

// What is told of every call: a refusal has one of these numbers and no value, and the output is as it was from the value on.
static inline void leaves(uint64_t told, uint64_t numbers, uint8_t *out, size_t size, size_t room, told_of left) {
    uint32_t number = vierskof_refusal(told);
    size_t written = size * vierskof_value(told), bytes = size * room;
    SO(number < 64 && (numbers >> number & 1));
    SO(number == 0 || written == 0);
    SO(written <= bytes);
    left(out + written, bytes - written);
    for (size_t i = written; i < bytes; i++) SO(out[i] == before_at(i));
}

// One call that packs: it changes no word that it is given. The output is the caller's to free.
static inline uint64_t pack_once(enum form form, const uint32_t *words, size_t count, size_t room, told_of unset, told_of left, uint8_t **out) {
    uint32_t *own = copy(words, count * sizeof *own);
    *out = before(room, unset);
    uint64_t told = packed(form, own, count, *out, room);
    leaves(told, 1 | 1 << 1 | 1 << 5 | 1 << 6 | 1 << 7 | 1 << 8 | 1 << 10 | 1 << 11, *out, 1, room, left);
    SO(count == 0 || memcmp(own, words, count * sizeof *own) == 0);
    free(own);
    return told;
}

// One call that unpacks.
static inline uint64_t unpack_once(enum form form, const uint8_t *bytes, size_t count, size_t room, told_of unset, told_of left, uint32_t **out) {
    uint8_t *own = copy(bytes, count);
    *out = before(room * sizeof **out, unset);
    uint64_t told = unpacked(form, own, count, *out, room);
    leaves(told, 1 | 1 << 1 | 1 << 5 | 1 << 7 | 1 << 8 | 1 << 11 | 1 << 19 | 1 << 20, (uint8_t *)*out, sizeof **out, room, left);
    SO(vierskof_value(told) <= (form == SHEET_FORM ? VIERSKOF_SHEET_WORDS : VIERSKOF_RECORD_WORDS));
    SO(count == 0 || memcmp(own, bytes, count) == 0);
    free(own);
    return told;
}

// Words that were packed, or that only had no room: four bytes a word are room enough, and the same words come back.
static inline void words_come_back(enum form form, const uint32_t *words, size_t count, uint64_t told, told_of unset, told_of left) {
    uint32_t number = vierskof_refusal(told);
    if (number && number != VIERSKOF_REFUSED_ROOM) return;
    uint8_t *bytes;
    uint32_t *again;
    uint64_t roomy = pack_once(form, words, count, VIERSKOF_TIGHT_ROOM(count), unset, left, &bytes);
    SO(vierskof_refusal(roomy) == 0 && (number || roomy == told));
    SO(unpack_once(form, bytes, vierskof_value(roomy), count, unset, left, &again) == count);
    SO(memcmp(again, words, count * sizeof *again) == 0);
    free(bytes);
    free(again);
}

// Bytes that were unpacked to these words: packed again they are the same bytes.
static inline void bytes_come_back(enum form form, const uint8_t *bytes, size_t count, uint64_t told, const uint32_t *words, told_of unset, told_of left) {
    if (vierskof_refusal(told)) return;
    uint8_t *again;
    SO(pack_once(form, words, vierskof_value(told), count, unset, left, &again) == count);
    SO(memcmp(again, bytes, count) == 0);
    free(again);
}

#endif
