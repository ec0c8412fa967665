// Batches of requests, on heap blocks of exact length, and what holds of every answer.
#ifndef BATCH_H
#define BATCH_H

#include "tight.h"

// What a batch is given.
struct batch {
    // None for sets of products.
    const struct outcomes *by;
    uint32_t *entries;
    size_t entry_words;
    uint32_t *sheets;
    size_t sheet_words;
    uint32_t *requests;
    size_t request_words;
    uint32_t allowance;
    size_t places;
    size_t room;
};

static inline uint64_t batched(const struct batch *given, uint64_t *replies, uint32_t *out) {
    const struct batch *b = given;
    if (b->by)
        return vierskof_evaluate_batch_by_levels(b->by->levels, b->by->table, b->by->bytes, b->entries, b->entry_words, b->sheets, b->sheet_words, b->requests,
                                                 b->request_words, b->allowance, replies, b->places, out, b->room);
    return vierskof_evaluate_batch(b->entries, b->entry_words, b->sheets, b->sheet_words, b->requests, b->request_words, b->allowance, replies, b->places, out,
                                   b->room);
}

// The table of a request, in a block of its own; one that is too long has a byte more than there may be.
static inline uint8_t *table_in(const uint32_t *request, size_t *bytes) {
    size_t told = request[0] & 0xFFFFFF;
    *bytes = told > VIERSKOF_TABLE_BYTES ? VIERSKOF_TABLE_BYTES + 1 : told;
    uint8_t *table = block(*bytes);
    for (size_t i = 0; i < *bytes; i++) table[i] = i < VIERSKOF_TABLE_BYTES ? (uint8_t)(request[2 + i / 4] >> (24 - 8 * (i % 4))) : 0;
    return table;
}

// The lead of the first sheet of a number, if there is one.
static inline const uint32_t *first_sheet(const struct batch *given, uint64_t number) {
    for (size_t at = 0; at < given->sheet_words; at += 1 + (given->sheets[at] & 0xFFFF))
        if (given->sheets[at] >> 16 == number) return given->sheets + at;
    return NULL;
}

// What a direct call answers, into this much room.
static inline uint64_t directly(const struct batch *given, const uint32_t *sheet, const uint32_t *request, uint32_t *out, size_t room) {
    size_t bytes, words = sheet[0] & 0xFFFF;
    uint8_t *table = table_in(request, &bytes);
    uint32_t *own = copy(sheet + 1, words * sizeof *own), number = sheet[0] >> 16;
    uint64_t told = given->by ? vierskof_evaluate_by_levels(given->by->levels, given->by->table, given->by->bytes, own, words, number, table, bytes, out, room)
                              : vierskof_evaluate(own, words, number, table, bytes, out, room);
    free(table);
    free(own);
    return told;
}

// Of a batch that was run: none is answered exactly where no sheet is in force or it isn't in the list; a decided request has the record of a direct call
// into what is left, a refused one its refusal, but for 18; and no more is taken than there is.
static inline void replied(const struct batch *given, uint64_t told, const uint64_t *replies, const uint32_t *out) {
    size_t used = 0;
    uint32_t left = given->allowance;
    for (size_t i = 0; i < given->request_words / VIERSKOF_REQUEST_WORDS; i++) {
        const uint32_t *request = given->requests + VIERSKOF_REQUEST_WORDS * i;
        uint32_t refusal = vierskof_refusal(replies[i]), nodes = vierskof_reply_nodes(replies[i]), words = vierskof_reply_words(replies[i]);
        uint64_t found = vierskof_sheet_in_force(given->entries, given->entry_words, request[0] >> 24, request[1]);
        const uint32_t *sheet = first_sheet(given, found);
        SO((replies[i] == 0) == !sheet);
        if (!sheet) continue;
        size_t room = given->room - used;
        uint32_t *own = block(room * sizeof *own);
        uint64_t direct = directly(given, sheet, request, own, room);
        uint32_t by_itself = vierskof_refusal(direct);
        if (refusal == VIERSKOF_REFUSED_ALLOWANCE) {
            SO(replies[i] == (uint64_t)refusal << 32 && (by_itself == 0 || by_itself == VIERSKOF_REFUSED_ROOM) && left < (sheet[0] & 0xFFFF));
        } else if (refusal) {
            SO(replies[i] == direct);
        } else {
            SO(direct == words && nodes > 0 && nodes <= left && nodes <= (sheet[0] & 0xFFFF));
            SO(memcmp(own, out + used, words * sizeof *own) == 0);
            used += words;
            left -= nodes;
        }
        free(own);
    }
    SO(used == told);
}

// One batch: it changes nothing that it is given, and nothing past its replies and records. Both are the caller's to free.
static inline uint64_t batch_holds(const struct batch *given, told_of unset, told_of left, uint64_t **replies, uint32_t **out) {
    size_t bytes = given->places * sizeof **replies;
    struct batch own = *given;
    own.entries = copy(given->entries, given->entry_words * sizeof *own.entries);
    own.sheets = copy(given->sheets, given->sheet_words * sizeof *own.sheets);
    own.requests = copy(given->requests, given->request_words * sizeof *own.requests);
    *replies = before(bytes, unset);
    *out = before(given->room * sizeof **out, unset);
    uint64_t told = batched(&own, *replies, *out);
    leaves(told, 1 | 1 << 1 | 1 << 6 | 1 << 11 | 1 << 15 | 1 << 21, (uint8_t *)*out, sizeof **out, given->room, left);
    size_t replied_bytes = vierskof_refusal(told) ? 0 : given->request_words / VIERSKOF_REQUEST_WORDS * sizeof **replies;
    SO(replied_bytes <= bytes);
    left((uint8_t *)*replies + replied_bytes, bytes - replied_bytes);
    for (size_t i = replied_bytes; i < bytes; i++) SO(((uint8_t *)*replies)[i] == before_at(i));
    SO(given->entry_words == 0 || memcmp(own.entries, given->entries, given->entry_words * sizeof *own.entries) == 0);
    SO(given->sheet_words == 0 || memcmp(own.sheets, given->sheets, given->sheet_words * sizeof *own.sheets) == 0);
    SO(given->request_words == 0 || memcmp(own.requests, given->requests, given->request_words * sizeof *own.requests) == 0);
    if (vierskof_refusal(told) == 0) replied(&own, told, *replies, *out);
    free(own.entries);
    free(own.sheets);
    free(own.requests);
    return told;
}

#endif
