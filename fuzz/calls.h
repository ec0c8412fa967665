// The calls over words by the numbers that the stored answers give them, and the join of tables, on heap blocks of exact length, so that a checker of memory
// sees every access past an end.
#ifndef CALLS_H
#define CALLS_H

#include <stdint.h>
#include <stdio.h>
#include <stdlib.h>
#include <string.h>

#include "vierskof.h"

enum call {
    EVALUATE,
    PARTIAL_EVALUATE,
    NARROW_RESIDUAL,
    COMPLETE_RESIDUAL,
    REQUIRED_FACTS,
    REQUIRED_RESIDUAL_FACTS,
    IS_PERMIT_CONSTANT,
    IS_DENY_CONSTANT,
    CARRIES_OBLIGATION,
    PARTIAL_EVALUATE_IN_ORDER,
    NARROW_RESIDUAL_IN_ORDER,
    SHEET_IN_FORCE,
    CALLS
};

// An input of the fuzzer may be a join too, whose first table stands where a table does and its second where words do; windows, whose dates stand before
// their words; words that are packed; a tight form, whose bytes stand where words do; or a batch, whose requests stand where a table does, eight bytes
// each (group, day, a code of the length, five bytes of the table), its register and sheets where words do, after a word that says how many are the register's,
// and its allowance in the place of a sheet's number.
enum { JOIN_TABLES = CALLS, APPLY_WINDOWS, PACK_SHEET, PACK_RECORD, UNPACK_SHEET, UNPACK_RECORD, EVALUATE_BATCH, INPUTS };

// Bytes of a request in an input.
enum { REQUEST_BYTES = 8 };

#define SO(claim) ((claim) ? (void)0 : not_so(#claim, __FILE__, __LINE__))

static inline void not_so(const char *claim, const char *file, int line) {
    fprintf(stderr, "%s:%d: not so: %s\n", file, line, claim);
    abort();
}

// A call by an outcome table has this bit in its number, in stored answers and in inputs of the fuzzer. In front of the fact table, in its place, there stand
// the count of levels, 32 bits, the bytes of the outcome table, 16 bits, and these bytes.
enum { BY_LEVELS = 32, LEVELS_LEAD = 6 };

// An input of the fuzzer begins with call, room and table bytes, as a stored answer does, and a sheet's number, of 32 bits.
enum { SHEET_AT = 6, LEAD = 10 };

// An outcome table.
struct outcomes {
    uint32_t levels;
    uint8_t *table;
    size_t bytes;
};

// What a call is given: a sheet's, a record's or a register's words, a sheet's number, a table, and the room of the output in words. A register is asked for
// a group and a day, which stand in the table's place, four bytes each.
struct given {
    enum call call;
    uint32_t *words;
    size_t count;
    uint32_t number;
    uint8_t *table;
    size_t bytes;
    size_t room;
    // None for sets of products.
    const struct outcomes *by;
};

static inline int writes(enum call call) {
    return call <= COMPLETE_RESIDUAL || call == PARTIAL_EVALUATE_IN_ORDER || call == NARROW_RESIDUAL_IN_ORDER;
}

static inline int narrows(enum call call) { return call == NARROW_RESIDUAL || call == NARROW_RESIDUAL_IN_ORDER; }

static inline int counts(enum call call) { return call == REQUIRED_FACTS || call == REQUIRED_RESIDUAL_FACTS; }

static inline int reads_sheet(enum call call) {
    return call == EVALUATE || call == PARTIAL_EVALUATE || call == PARTIAL_EVALUATE_IN_ORDER || call == REQUIRED_FACTS;
}

// Bytes of what the call writes to.
static inline size_t out_bytes(const struct given *given) {
    if (counts(given->call)) return VIERSKOF_SET_NUMBERS * sizeof(uint64_t);
    return writes(given->call) ? given->room * sizeof(uint32_t) : 0;
}

// What a join is given.
struct join {
    uint8_t *one;
    size_t one_bytes;
    uint8_t *two;
    size_t two_bytes;
    size_t room;
};

static inline uint64_t joined(const struct join *join, uint8_t *out) {
    return vierskof_join_tables(join->one, join->one_bytes, join->two, join->two_bytes, out, join->room);
}

// A block of exactly this length. One of no bytes is a pointer too.
static inline void *block(size_t bytes) {
    void *made = malloc(bytes);
    if (!made) abort();
    return made;
}

static inline void *copy(const void *from, size_t bytes) {
    void *made = block(bytes);
    if (bytes) memcpy(made, from, bytes);
    return made;
}

// The big-endian number of this many bytes.
static inline uint32_t number_at(const uint8_t *from, size_t bytes) {
    uint32_t number = 0;
    for (size_t i = 0; i < bytes; i++) number = number << 8 | from[i];
    return number;
}

// Words that stand most significant byte first, in a block of their own.
static inline uint32_t *words_at(const uint8_t *from, size_t count) {
    uint32_t *words = block(count * sizeof *words);
    for (size_t i = 0; i < count; i++) words[i] = number_at(from + 4 * i, 4);
    return words;
}

// The table's bytes of an input, at most those that are there.
static inline size_t table_bytes(const uint8_t *data, size_t size) {
    size_t bytes = number_at(data + 4, 2), left = size - LEAD;
    return bytes < left ? bytes : left;
}

// The group and the day that a register is asked for: 0 where the table ends before them.
static inline uint32_t asked(const struct given *given, size_t at) { return at + 4 <= given->bytes ? number_at(given->table + at, 4) : 0; }

static inline uint32_t group_of(const struct given *given) { return asked(given, 0); }

static inline uint32_t day_of(const struct given *given) { return asked(given, 4); }

// A table's bytes with an outcome table in front: takes that out of them. One that the bytes end before has as many as there are.
static inline struct outcomes outcomes_in(struct given *given) {
    size_t lead = given->bytes < LEVELS_LEAD ? given->bytes : LEVELS_LEAD, left = given->bytes - lead;
    size_t told = lead == LEVELS_LEAD ? number_at(given->table + 4, 2) : 0, bytes = told < left ? told : left;
    struct outcomes by = {lead == LEVELS_LEAD ? number_at(given->table, 4) : 0, copy(given->table + lead, bytes), bytes};
    uint8_t *facts = copy(given->table + lead + bytes, left - bytes);
    free(given->table);
    given->table = facts;
    given->bytes = left - bytes;
    return by;
}

// What a call by an outcome table returns.
static inline uint64_t returned_by(const struct given *given, uint32_t *out) {
    uint32_t levels = given->by->levels, number = given->number;
    const uint8_t *outcomes = given->by->table, *facts = given->table;
    const uint32_t *words = given->words;
    size_t outcome_bytes = given->by->bytes, count = given->count, bytes = given->bytes, room = given->room;
    switch (given->call) {
    case EVALUATE: return vierskof_evaluate_by_levels(levels, outcomes, outcome_bytes, words, count, number, facts, bytes, out, room);
    case PARTIAL_EVALUATE: return vierskof_partial_evaluate_by_levels(levels, outcomes, outcome_bytes, words, count, number, facts, bytes, out, room);
    case NARROW_RESIDUAL: return vierskof_narrow_residual_by_levels(levels, outcomes, outcome_bytes, words, count, number, facts, bytes, out, room);
    case COMPLETE_RESIDUAL: return vierskof_complete_residual_by_levels(levels, outcomes, outcome_bytes, words, count, number, facts, bytes, out, room);
    case PARTIAL_EVALUATE_IN_ORDER:
        return vierskof_partial_evaluate_in_order_by_levels(levels, outcomes, outcome_bytes, words, count, number, facts, bytes, out, room);
    case NARROW_RESIDUAL_IN_ORDER:
        return vierskof_narrow_residual_in_order_by_levels(levels, outcomes, outcome_bytes, words, count, number, facts, bytes, out, room);
    default: abort();
    }
}

// What the call returns. `out` holds `out_bytes`.
static inline uint64_t returned(const struct given *given, void *out) {
    if (given->by && writes(given->call)) return returned_by(given, out);
    const uint32_t *words = given->words;
    size_t count = given->count;
    uint32_t number = given->number;
    switch (given->call) {
    case EVALUATE: return vierskof_evaluate(words, count, number, given->table, given->bytes, out, given->room);
    case PARTIAL_EVALUATE: return vierskof_partial_evaluate(words, count, number, given->table, given->bytes, out, given->room);
    case NARROW_RESIDUAL: return vierskof_narrow_residual(words, count, number, given->table, given->bytes, out, given->room);
    case COMPLETE_RESIDUAL: return vierskof_complete_residual(words, count, number, given->table, given->bytes, out, given->room);
    case REQUIRED_FACTS: return vierskof_required_facts(words, count, out, VIERSKOF_SET_NUMBERS);
    case REQUIRED_RESIDUAL_FACTS: return vierskof_required_residual_facts(words, count, out, VIERSKOF_SET_NUMBERS);
    case IS_PERMIT_CONSTANT: return vierskof_is_permit_constant(words, count);
    case IS_DENY_CONSTANT: return vierskof_is_deny_constant(words, count);
    case CARRIES_OBLIGATION: return vierskof_carries_obligation(words, count);
    case PARTIAL_EVALUATE_IN_ORDER: return vierskof_partial_evaluate_in_order(words, count, number, given->table, given->bytes, out, given->room);
    case NARROW_RESIDUAL_IN_ORDER: return vierskof_narrow_residual_in_order(words, count, number, given->table, given->bytes, out, given->room);
    case SHEET_IN_FORCE: return vierskof_sheet_in_force(words, count, group_of(given), day_of(given));
    default: abort();
    }
}

#endif
