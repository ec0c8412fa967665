// The fuzzer's harness over the C interface. An input is a call, a room and a table's length, 16 bits each, a sheet's number, 32 bits, the table and the
// words, a second table or a tight form, all most significant byte first; the numbers after the last call's are those of joins, windows, packing, unpacking and
// batches, and a bit of its own those of calls by an outcome table, which stands in front of the table. Every claim holds of every input; one that doesn't ends the run.
#include <stdio.h>

#include "batch.h"
#include "calls.h"
#include "tight.h"
#include "windows.h"

enum { FACTS = 1024 };

// Effects and products as one number: products under a permit, or one of these.
enum { DENIED = 0x10000, NOTHING };

enum { ABSENT, PRESENT, UNKNOWN };

#define HOLDS(claim) ((claim) ? (void)0 : broken(#claim, __LINE__))

static void broken(const char *claim, int line) {
    fprintf(stderr, "harness.c:%d: not so: %s\n", line, claim);
    abort();
}

// What a call returned, and its output afterwards: a record's words, or a set's numbers.
struct answer {
    uint32_t number;
    uint32_t value;
    uint32_t *out;
};

// What sets the outputs of two calls apart.
enum mark { FIRST = 0x5A5A5A5A, SECOND = 0x25A5A5A5 };

// The words of an output before a call: another one at each place.
static uint32_t marked(enum mark mark, size_t place) { return mark ^ (uint32_t)place * 0x9E3779B1; }

static uint32_t *output(size_t bytes, enum mark mark) {
    uint32_t *out = block(bytes);
    for (size_t i = 0; i < bytes / sizeof *out; i++) out[i] = marked(mark, i);
    return out;
}

static int same(const void *one, const void *other, size_t bytes) { return bytes == 0 || memcmp(one, other, bytes) == 0; }

// A refusal has a number of the table and no value; an accepted call's value is in its range.
static void in_range(const struct given *given, const struct answer *answer) {
    bool in_table = answer->number <= VIERSKOF_REFUSED_ROOM && answer->number != 9, no_register = answer->number == VIERSKOF_REFUSED_REGISTER;
    bool other_sheet = answer->number == VIERSKOF_REFUSED_SHEET_NUMBER && writes(given->call);
    bool against = answer->number == VIERSKOF_REFUSED_CONTRADICTION && narrows(given->call);
    bool no_outcomes = answer->number == VIERSKOF_REFUSED_OUTCOME_TABLE && given->by && writes(given->call);
    HOLDS(given->call == SHEET_IN_FORCE ? no_register || answer->number == 0 : in_table || other_sheet || against || no_outcomes);
    if (answer->number) {
        HOLDS(answer->value == 0);
    } else if (writes(given->call)) {
        HOLDS(answer->value >= 3 && answer->value <= given->room && answer->value <= VIERSKOF_RECORD_WORDS);
    } else if (given->call == SHEET_IN_FORCE) {
        HOLDS(answer->value <= VIERSKOF_NO_SHEET);
    } else {
        HOLDS(answer->value <= (counts(given->call) ? FACTS : 1));
    }
}

// The count is the number of one bits in the set: 0 when refused, whatever stood there before.
static void counted(const struct answer *answer) {
    const uint64_t *set = (const uint64_t *)answer->out;
    int ones = 0;
    for (size_t i = 0; i < VIERSKOF_SET_NUMBERS; i++) ones += __builtin_popcountll(set[i]);
    HOLDS((uint32_t)ones == answer->value);
}

// One call on blocks of exact length. It changes nothing that it is given, and no word past its record; the output is the caller's to free.
static struct answer call(struct given given, enum mark mark) {
    struct given own = given;
    own.words = copy(given.words, given.count * sizeof *given.words);
    own.table = copy(given.table, given.bytes);
    struct outcomes by = {0};
    if (given.by) {
        by = *given.by;
        by.table = copy(given.by->table, given.by->bytes);
        own.by = &by;
    }
    uint32_t *out = output(out_bytes(&given), mark);
    uint64_t told = returned(&own, out);
    struct answer answer = {(uint32_t)(told >> 32), (uint32_t)told, out};
    in_range(&given, &answer);
    if (counts(given.call)) counted(&answer);
    for (size_t i = answer.value; writes(given.call) && i < given.room; i++) HOLDS(out[i] == marked(mark, i));
    // What is written carries the number that was given.
    HOLDS(!writes(given.call) || answer.number || vierskof_sheet_number(out, answer.value) == given.number);
    HOLDS(same(own.words, given.words, given.count * sizeof *given.words));
    HOLDS(same(own.table, given.table, given.bytes));
    HOLDS(!given.by || same(by.table, given.by->table, by.bytes));
    free(by.table);
    free(own.words);
    free(own.table);
    return answer;
}

// The number of a call's refusal.
static uint32_t number_of(struct given given) {
    struct answer answer = call(given, FIRST);
    free(answer.out);
    return answer.number;
}

// A second call on the same input, in another output, answers the same.
static struct answer same_twice(struct given given) {
    struct answer first = call(given, FIRST), second = call(given, SECOND);
    size_t bytes = writes(given.call) ? first.value * sizeof *first.out : out_bytes(&given);
    HOLDS(first.number == second.number && first.value == second.value);
    HOLDS(same(first.out, second.out, bytes));
    free(second.out);
    return first;
}

// The original, where it is linked: it answers as the C interface does.
__attribute__((weak)) uint64_t judge_answer(size_t call, const struct outcomes *by, const uint32_t *words, size_t count, uint32_t number, const uint8_t *table,
                                            size_t bytes, uint32_t *out, size_t room);

// The original returns the same, and would leave the same output.
static void judged(struct given given, const struct answer *answer) {
    if (!judge_answer) return;
    size_t bytes = out_bytes(&given);
    uint32_t *out = output(bytes, FIRST);
    uint64_t told = judge_answer(given.call, given.by, given.words, given.count, given.number, given.table, given.bytes, out, bytes / sizeof *out);
    HOLDS(told == ((uint64_t)answer->number << 32 | answer->value));
    HOLDS(same(out, answer->out, bytes));
    free(out);
}

// Whether the original evaluates a sheet to the clause of a record, facts aside.
__attribute__((weak)) bool judge_clause(const struct outcomes *by, const uint32_t *words, size_t count, const uint8_t *known, size_t bytes,
                                        const uint32_t *record, size_t length);

// ---- records

// All calls that read only a record refuse the same ones for the same cause; the tree of a Resolved record is a permit or a deny, and no tree is both.
static uint32_t as_record(const uint32_t *words, size_t count) {
    struct given given = {REQUIRED_RESIDUAL_FACTS, (uint32_t *)words, count, 0, NULL, 0, 0, NULL};
    uint32_t number = number_of(given);
    uint32_t said[CALLS] = {0};
    for (given.call = IS_PERMIT_CONSTANT; given.call <= CARRIES_OBLIGATION; given.call++) {
        struct answer answer = call(given, FIRST);
        HOLDS(answer.number == number);
        said[given.call] = answer.value;
        free(answer.out);
    }
    HOLDS(!(said[IS_PERMIT_CONSTANT] && said[IS_DENY_CONSTANT]));
    if (number) return number;
    bool resolved = vierskof_is_resolved(words, count);
    HOLDS(!resolved || said[IS_PERMIT_CONSTANT] || said[IS_DENY_CONSTANT]);
    HOLDS(vierskof_tree(words, count) < count && vierskof_permits(words, count) == (resolved && said[IS_PERMIT_CONSTANT]));
    return number;
}

// The record that a call wrote, in a block of its own length: the calls that read records accept it.
static struct given record_of(struct answer answer, size_t room) {
    struct given record = {NARROW_RESIDUAL, copy(answer.out, answer.value * sizeof *answer.out), answer.value, 0, NULL, 0, room, NULL};
    record.number = vierskof_sheet_number(record.words, record.count);
    HOLDS(as_record(record.words, record.count) == 0);
    free(answer.out);
    return record;
}

// A Resolved record's effect and products.
static uint32_t decided(const uint32_t *record, size_t words) {
    HOLDS(vierskof_is_resolved(record, words));
    return vierskof_permits(record, words) ? vierskof_products(record, words) : DENIED;
}

// ---- tables

static int presence(const struct given *table, size_t fact) {
    return fact / 4 < table->bytes ? table->table[fact / 4] >> (6 - 2 * (fact % 4)) & 3 : ABSENT;
}

// Whether the table enters a fact as Present that some entry of the record has as Absent, or the reverse.
static bool contradicted(const struct given *given) {
    bool found = false;
    for (size_t i = 0; i < (given->words[0] & 0xFFF); i++) {
        uint32_t entry = given->words[1 + i / 2] >> (i % 2 ? 0 : 16) & 0xFFFF, seen = entry >> 14, fact = entry & 0x3FF;
        int field = presence(given, fact);
        found |= fact / 4 < given->bytes && ((seen == ABSENT && field == PRESENT) || (seen == PRESENT && field == ABSENT));
    }
    return found;
}

// A record tells silence where the table ended before the fact, all that a sheet's record tells, and is in all else that of a table that enters every fact.
static void tells_silence(struct given given, const struct answer *answer) {
    uint8_t *whole = block(VIERSKOF_TABLE_BYTES);
    memset(whole, 0, VIERSKOF_TABLE_BYTES);
    if (given.bytes) memcpy(whole, given.table, given.bytes);
    struct given entering = given;
    entering.table = whole;
    entering.bytes = VIERSKOF_TABLE_BYTES;
    struct answer entered = call(entering, FIRST);
    // what is entered may contradict what a narrowed record has as Present
    if (narrows(given.call) && contradicted(&entering)) {
        HOLDS(entered.number == VIERSKOF_REFUSED_CONTRADICTION);
        free(entered.out);
        free(whole);
        return;
    }
    HOLDS(entered.number == 0 && entered.value == answer->value);
    for (size_t i = 0; i < (answer->out[0] & 0xFFF); i++) {
        size_t at = 1 + i / 2, shift = i % 2 ? 0 : 16, fact = answer->out[at] >> shift & 0x3FF;
        uint32_t silent = 3U << (shift + 14);
        bool tells = (answer->out[at] & silent) == silent;
        HOLDS(!reads_sheet(given.call) || tells == (fact / 4 >= given.bytes));
        if (tells && (entered.out[at] & silent) == 0) {
            HOLDS(fact / 4 >= given.bytes);
            entered.out[at] |= silent;
        }
    }
    HOLDS(same(answer->out, entered.out, answer->value * sizeof *answer->out));
    free(entered.out);
    free(whole);
}

// Settles those facts that a table leaves Unknown: all of them, or every other one.
static void settle(const struct given *from, int all, uint8_t *table) {
    memset(table, 0, from->bytes);
    for (size_t fact = 0; fact < 4 * from->bytes; fact++) {
        int settled = (int)((fact ^ from->count) & 1), field = presence(from, fact);
        if (field == UNKNOWN && (all || fact & 2)) field = settled ? PRESENT : ABSENT;
        table[fact / 4] |= (uint8_t)(field << (6 - 2 * (fact % 4)));
    }
}

// No condition of the record names a fact that the table has settled.
static void names_no_settled(const struct given *record, const struct given *table) {
    struct given given = *record;
    given.call = REQUIRED_RESIDUAL_FACTS;
    struct answer answer = call(given, FIRST);
    const uint64_t *set = (const uint64_t *)answer.out;
    for (size_t fact = 0; fact < FACTS; fact++) HOLDS(!(set[fact / 64] >> (63 - fact % 64) & 1) || presence(table, fact) == UNKNOWN);
    free(answer.out);
}

// ---- roads

// Takes an accepted sheet or record through a call with its own number and a faultless table, which is refused for want of room, and a narrowing exactly where
// the table contradicts an entry. Whether it was accepted.
static int taken(struct given given, enum call which, const uint8_t *table, size_t bytes, struct given *record) {
    given.call = which;
    given.table = (uint8_t *)table;
    given.bytes = bytes;
    struct answer answer = call(given, FIRST);
    bool against = narrows(which) && contradicted(&given);
    HOLDS(against ? answer.number == VIERSKOF_REFUSED_CONTRADICTION : answer.number == 0 || answer.number == VIERSKOF_REFUSED_ROOM);
    if (answer.number == 0) {
        *record = record_of(answer, given.room);
        record->by = given.by;
    } else {
        free(answer.out);
    }
    return answer.number == 0;
}

// The effect and products in which a way ends, and NOTHING without room.
static uint32_t end(struct given given, enum call last, const uint8_t *known, size_t bytes) {
    struct given record;
    if (!taken(given, last, known, bytes, &record)) return NOTHING;
    uint32_t found = decided(record.words, record.count);
    free(record.words);
    return found;
}

// A way from a sheet: its reduction, its narrowing, and whether both leave arms in sheet order.
struct way {
    enum call reduce;
    enum call narrow;
    int in_order;
};

// Direct evaluation's clause, facts aside, where the original is linked to judge it.
static void ends_in_clause(struct given sheet, struct given record, const uint8_t *known) {
    struct given completed;
    if (!judge_clause) return;
    HOLDS(taken(record, COMPLETE_RESIDUAL, known, sheet.bytes, &completed));
    HOLDS(judge_clause(sheet.by, sheet.words, sheet.count, known, sheet.bytes, completed.words, completed.count));
    free(completed.words);
}

// A record in sheet order is the same after a narrowing that settles nothing.
static void stays(struct given record) {
    uint8_t unknown[VIERSKOF_TABLE_BYTES];
    struct given again;
    memset(unknown, 0xAA, sizeof unknown);
    HOLDS(taken(record, NARROW_RESIDUAL_IN_ORDER, unknown, sizeof unknown, &again));
    HOLDS(again.count == record.count && same(again.words, record.words, record.count * sizeof *record.words));
    free(again.words);
}

// Narrowed first, a record is completed to the same end; a Resolved one comes back equal. A record of a road is accepted for certain: it has room, and no table
// of the road contradicts it. Whether it was accepted, and the record.
static int narrowed(struct given record, enum call narrow, const uint8_t *table, const uint8_t *known, uint32_t ends, int certain, struct given *narrower) {
    struct given given = {.table = (uint8_t *)table, .bytes = record.bytes};
    int accepted = taken(record, narrow, table, record.bytes, narrower);
    HOLDS(accepted || !certain);
    if (!accepted) return 0;
    names_no_settled(narrower, &given);
    uint32_t found = end(*narrower, COMPLETE_RESIDUAL, known, record.bytes);
    HOLDS(found == ends || (!certain && (found == NOTHING || ends == NOTHING)));
    if (vierskof_is_resolved(record.words, record.count)) {
        HOLDS(narrower->count == record.count && same(narrower->words, record.words, record.count * sizeof *record.words));
    }
    return 1;
}

// Reduced with the first table, narrowed with the second and completed with the known one, an accepted sheet ends as in one sitting; in sheet order in its
// clause, facts aside.
static void staged(struct given sheet, struct way way, const uint8_t *first, const uint8_t *second, const uint8_t *known) {
    struct given reduced, narrower;
    uint32_t sitting = end(sheet, EVALUATE, known, sheet.bytes);
    HOLDS(sitting != NOTHING && taken(sheet, way.reduce, first, sheet.bytes, &reduced));
    reduced.bytes = sheet.bytes;
    HOLDS(end(reduced, COMPLETE_RESIDUAL, known, sheet.bytes) == sitting);
    HOLDS(narrowed(reduced, way.narrow, second, known, sitting, 1, &narrower));
    if (way.in_order) {
        stays(reduced);
        stays(narrower);
        ends_in_clause(sheet, reduced, known);
        ends_in_clause(sheet, narrower, known);
    }
    free(reduced.words);
    free(narrower.words);
}

// Each pair by itself, and the two mixed.
static const struct way WAYS[] = {
    {PARTIAL_EVALUATE, NARROW_RESIDUAL, 0},
    {PARTIAL_EVALUATE_IN_ORDER, NARROW_RESIDUAL_IN_ORDER, 1},
    {PARTIAL_EVALUATE, NARROW_RESIDUAL_IN_ORDER, 0},
    {PARTIAL_EVALUATE_IN_ORDER, NARROW_RESIDUAL, 0},
};

// Under a number that no record carries an accepted sheet is refused by 16, and under another than its own an accepted record, with room and without.
static void other_numbers(struct given given, int sheet, const uint8_t *known) {
    static const enum call calls[2][3] = {{COMPLETE_RESIDUAL, NARROW_RESIDUAL, NARROW_RESIDUAL_IN_ORDER}, {EVALUATE, PARTIAL_EVALUATE, PARTIAL_EVALUATE_IN_ORDER}};
    uint32_t off = given.number ? given.number : 1;
    given.number = sheet ? given.number | 0x10000 : vierskof_sheet_number(given.words, given.count) ^ off;
    for (size_t i = 0; i < 6; i++) {
        struct given other = given;
        other.call = calls[sheet][i % 3];
        if (i % 3 == 0) other.table = (uint8_t *)known;
        if (i > 2) other.room = 0;
        HOLDS(number_of(other) == VIERSKOF_REFUSED_SHEET_NUMBER);
    }
}

// An accepted sheet or record with a faultless table: with tables that leave facts open, and with the known one from the start; all under one number.
static void roads(struct given given, int sheet) {
    given.room = sheet ? VIERSKOF_ROOM(given.count) : VIERSKOF_RECORD_WORDS;
    uint8_t *some = block(given.bytes), *known = block(given.bytes);
    settle(&given, 0, some);
    settle(&given, 1, known);
    other_numbers(given, sheet, known);
    given.number = sheet ? given.number & 0xFFFF : vierskof_sheet_number(given.words, given.count);
    for (size_t i = 0; sheet && i < sizeof WAYS / sizeof *WAYS; i++) {
        staged(given, WAYS[i], given.table, some, known);
        staged(given, WAYS[i], known, known, known);
    }
    enum call narrowings[] = {NARROW_RESIDUAL, NARROW_RESIDUAL_IN_ORDER};
    for (size_t i = 0; !sheet && i < 2; i++) {
        struct given narrower;
        uint32_t ends = end(given, COMPLETE_RESIDUAL, known, given.bytes);
        if (narrowed(given, narrowings[i], given.table, known, ends, 0, &narrower)) free(narrower.words);
    }
    free(some);
    free(known);
}

// ---- levels

static uint32_t meets(const struct outcomes *by, uint32_t one, uint32_t other) { return by->table[one * by->levels + other]; }

static uint32_t joins(const struct outcomes *by, uint32_t one, uint32_t other) { return by->table[(by->levels + one) * by->levels + other]; }

// Whether the table has levels alone, and operations that commute, associate and absorb each other.
static bool is_lattice(const struct outcomes *by) {
    uint32_t n = by->levels;
    if (n < 1 || n > VIERSKOF_OUTCOME_LEVELS || by->bytes != 2 * (size_t)n * n) return false;
    for (size_t i = 0; i < by->bytes; i++)
        if (by->table[i] >= n) return false;
    for (uint32_t a = 0; a < n; a++) {
        for (uint32_t b = 0; b < n; b++) {
            if (meets(by, a, b) != meets(by, b, a) || joins(by, a, b) != joins(by, b, a)) return false;
            if (meets(by, a, joins(by, a, b)) != a || joins(by, a, meets(by, a, b)) != a) return false;
            for (uint32_t c = 0; c < n; c++) {
                if (meets(by, meets(by, a, b), c) != meets(by, a, meets(by, b, c))) return false;
                if (joins(by, joins(by, a, b), c) != joins(by, a, joins(by, b, c))) return false;
            }
        }
    }
    return true;
}

// Why words are refused by levels, whatever the facts: with no facts, and with no room, for which all else would be refused.
static uint32_t unread_by(struct given given, int sheet) {
    given.call = sheet ? PARTIAL_EVALUATE : COMPLETE_RESIDUAL;
    given.number = sheet ? 0 : vierskof_sheet_number(given.words, given.count);
    given.bytes = given.room = 0;
    uint32_t number = number_of(given);
    return number == VIERSKOF_REFUSED_ROOM ? 0 : number;
}

// A table is refused exactly if it is no lattice, before all else: no words, and no room. What was written reads by the same table.
static void by_levels(struct given given, const struct answer *answer) {
    bool refused = answer->number == VIERSKOF_REFUSED_OUTCOME_TABLE;
    HOLDS(refused == !is_lattice(given.by));
    struct given none = given;
    none.count = none.room = 0;
    HOLDS(number_of(none) == (refused ? VIERSKOF_REFUSED_OUTCOME_TABLE : VIERSKOF_REFUSED_LENGTH));
    if (answer->number) return;
    struct given written = given;
    written.words = answer->out;
    written.count = answer->value;
    HOLDS(unread_by(written, 0) == 0);
}

// ---- registers

// The sheet in force is that of an entry that qualifies, and none is where no entry does. The order of the entries never matters.
static void in_force(struct given given, const struct answer *answer) {
    bool qualifies = false, found = false;
    uint32_t *turned = block(given.count * sizeof *turned);
    if (given.count % 2) turned[given.count - 1] = given.words[given.count - 1];
    for (size_t i = 0; i + 1 < given.count; i += 2) {
        uint32_t lead = given.words[i], day = given.words[i + 1];
        bool due = lead >> 24 == group_of(&given) && !(lead >> 23 & 1) && day <= day_of(&given);
        qualifies = qualifies || due;
        found = found || (due && (lead & 0xFFFF) == answer->value);
        size_t at = given.count / 2 * 2 - 2 - i;
        turned[at] = lead;
        turned[at + 1] = day;
    }
    HOLDS(answer->number || (found == qualifies && qualifies == (answer->value < VIERSKOF_NO_SHEET)));
    given.words = turned;
    struct answer other = call(given, SECOND);
    HOLDS(other.number == answer->number && other.value == answer->value);
    free(other.out);
    free(turned);
}

// ---- joins

// The comparison's own join, where it is linked.
__attribute__((weak)) uint64_t judge_join(const uint8_t *one, size_t one_bytes, const uint8_t *two, size_t two_bytes, uint8_t *out, size_t room);

static uint8_t *bytes_before(size_t room) {
    uint8_t *out = block(room);
    for (size_t i = 0; i < room; i++) out[i] = (uint8_t)marked(FIRST, i);
    return out;
}

// One join. It changes neither table and no byte past its result, and answers as the comparison's own does; the output is the caller's to free.
static uint64_t join_once(struct join given, uint8_t **out) {
    struct join own = {copy(given.one, given.one_bytes), given.one_bytes, copy(given.two, given.two_bytes), given.two_bytes, given.room};
    *out = bytes_before(given.room);
    uint64_t told = joined(&own, *out);
    uint32_t number = vierskof_refusal(told), value = vierskof_value(told);
    HOLDS(number == 0 || number == VIERSKOF_REFUSED_TABLE_LENGTH || number == VIERSKOF_REFUSED_TABLE_FIELD || number == VIERSKOF_REFUSED_CLASH || number == VIERSKOF_REFUSED_ROOM);
    HOLDS(number == 0 || value == 0);
    HOLDS(number != 0 || value == (given.one_bytes > given.two_bytes ? given.one_bytes : given.two_bytes));
    for (size_t i = value; i < given.room; i++) HOLDS((*out)[i] == (uint8_t)marked(FIRST, i));
    HOLDS(same(own.one, given.one, given.one_bytes) && same(own.two, given.two, given.two_bytes));
    free(own.one);
    free(own.two);
    if (judge_join) {
        uint8_t *expected = bytes_before(given.room);
        HOLDS(judge_join(given.one, given.one_bytes, given.two, given.two_bytes, expected, given.room) == told);
        HOLDS(same(expected, *out, given.room));
        free(expected);
    }
    return told;
}

// The order of the two makes no difference; what was joined adds nothing to the longer table's join with it.
static void hold_join(struct join given) {
    struct join turned = {given.two, given.two_bytes, given.one, given.one_bytes, given.room};
    uint8_t *out, *other;
    uint64_t told = join_once(given, &out);
    HOLDS(join_once(turned, &other) == told && same(out, other, given.room));
    free(other);
    if (vierskof_refusal(told) == 0) {
        struct join again = {out, vierskof_value(told), given.one, given.one_bytes, given.room};
        HOLDS(join_once(again, &other) == told && same(out, other, given.room));
        free(other);
    }
    free(out);
}

// ---- inputs

// Whether the table is one that a reduction takes.
static int faultless(const struct given *given) {
    for (size_t fact = 0; fact < 4 * given->bytes; fact++)
        if (presence(given, fact) == 3) return 0;
    return given->bytes <= VIERSKOF_TABLE_BYTES;
}

// What holds of any answer, and of the words and the table that it was given.
static void hold(struct given given) {
    struct answer answer = same_twice(given);
    judged(given, &answer);
    if (given.call == SHEET_IN_FORCE) {
        in_force(given, &answer);
        free(answer.out);
        return;
    }
    if (given.by) by_levels(given, &answer);
    if (writes(given.call) && answer.number == 0) {
        tells_silence(given, &answer);
        free(record_of(answer, given.room).words);
    } else {
        free(answer.out);
    }
    struct given facts = given;
    facts.call = REQUIRED_FACTS;
    int sheet = reads_sheet(given.call);
    uint32_t number = given.by ? unread_by(given, sheet) : sheet ? number_of(facts) : as_record(given.words, given.count);
    if (number == 0 && faultless(&given)) roads(given, sheet);
}

// Nothing is told of bytes here: the address checks see what they must.
static void as_it_is(uint8_t *bytes, size_t count) { (void)bytes, (void)count; }

// ---- tight forms

// The comparison's own calls, where they are linked.
__attribute__((weak)) uint64_t judge_pack(bool record, const uint32_t *words, size_t count, uint8_t *out, size_t room);
__attribute__((weak)) uint64_t judge_unpack(bool record, const uint8_t *bytes, size_t count, uint32_t *out, size_t room);

// The comparison's own call answers the same, and would leave the same output; and the words come back.
static void hold_pack(enum form form, const uint32_t *words, size_t count, size_t room) {
    uint8_t *out;
    uint64_t told = pack_once(form, words, count, room, as_it_is, as_it_is, &out);
    if (judge_pack) {
        uint8_t *expected = before(room, as_it_is);
        HOLDS(judge_pack(form == RECORD_FORM, words, count, expected, room) == told);
        HOLDS(same(expected, out, room));
        free(expected);
    }
    words_come_back(form, words, count, told, as_it_is, as_it_is);
    free(out);
}

// Likewise of bytes.
static void hold_unpack(enum form form, const uint8_t *bytes, size_t count, size_t room) {
    uint32_t *out;
    uint64_t told = unpack_once(form, bytes, count, room, as_it_is, as_it_is, &out);
    if (judge_unpack) {
        uint32_t *expected = before(room * sizeof *out, as_it_is);
        HOLDS(judge_unpack(form == RECORD_FORM, bytes, count, expected, room) == told);
        HOLDS(same(expected, out, room * sizeof *out));
        free(expected);
    }
    bytes_come_back(form, bytes, count, told, out, as_it_is, as_it_is);
    free(out);
}

// ---- batches

// The comparison's desk, where it is linked.
__attribute__((weak)) uint64_t judge_batch(const struct outcomes *by, const uint32_t *entries, size_t entry_words, const uint32_t *sheets, size_t sheet_words,
                                           const uint32_t *requests, size_t request_words, uint32_t allowance, uint64_t *replies, size_t places, uint32_t *out,
                                           size_t room);

// The requests of an input, as 66 words each; bytes that are no whole one are words of a partial one.
static void requests_in(const struct given *given, struct batch *batch) {
    size_t count = given->bytes / REQUEST_BYTES, more = given->bytes % REQUEST_BYTES;
    batch->request_words = VIERSKOF_REQUEST_WORDS * count + more;
    batch->requests = block(batch->request_words * sizeof *batch->requests);
    memset(batch->requests, 0, batch->request_words * sizeof *batch->requests);
    for (size_t i = 0; i < count; i++) {
        static const uint32_t lengths[] = {255, 256, 257, 0xFFFFFF};
        const uint8_t *from = given->table + REQUEST_BYTES * i;
        uint32_t *request = batch->requests + VIERSKOF_REQUEST_WORDS * i, length = from[2] < 252 ? from[2] : lengths[from[2] - 252];
        request[0] = (uint32_t)from[0] << 24 | length;
        request[1] = from[1];
        request[2] = number_at(from + 3, 4);
        request[3] = (uint32_t)from[7] << 24;
    }
}

// The claims of every batch; and the desk has the same replies and records.
static void hold_batch(const struct given *given) {
    size_t told_words = given->count ? given->words[0] & 0x3FF : 0, left = given->count ? given->count - 1 : 0;
    size_t entry_words = told_words < left ? told_words : left;
    struct batch batch = {given->by, given->words + (given->count ? 1 : 0), entry_words, NULL, left - entry_words, NULL, 0, given->number & 0x1FFFF, 0, given->room};
    batch.sheets = batch.entries + entry_words;
    requests_in(given, &batch);
    // One place too few, just enough, or some more.
    size_t count = batch.request_words / VIERSKOF_REQUEST_WORDS, more = given->number >> 17 & 7;
    batch.places = more == 7 && count ? count - 1 : count + more % 3;
    uint64_t *replies;
    uint32_t *out;
    uint64_t told = batch_holds(&batch, as_it_is, as_it_is, &replies, &out);
    if (judge_batch) {
        uint64_t *due = before(batch.places * sizeof *due, as_it_is);
        uint32_t *expected = before(batch.room * sizeof *expected, as_it_is);
        HOLDS(judge_batch(batch.by, batch.entries, batch.entry_words, batch.sheets, batch.sheet_words, batch.requests, batch.request_words, batch.allowance, due,
                          batch.places, expected, batch.room) == told);
        HOLDS(same(due, replies, batch.places * sizeof *due));
        HOLDS(same(expected, out, batch.room * sizeof *expected));
        free(due);
        free(expected);
    }
    free(replies);
    free(out);
    free(batch.requests);
}

int LLVMFuzzerTestOneInput(const uint8_t *data, size_t size) {
    if (size < LEAD) return 0;
    size_t bytes = table_bytes(data, size), words = LEAD + bytes;
    uint32_t number = number_at(data, 2), input = number % INPUTS;
    if (number & BY_LEVELS) {
        enum call which = writes(number % BY_LEVELS) ? number % BY_LEVELS : EVALUATE;
        int batch = number % BY_LEVELS == EVALUATE_BATCH;
        struct given given = {which, NULL, (size - words) / 4, number_at(data + SHEET_AT, 4), NULL, bytes, number_at(data + 2, 2), NULL};
        given.table = copy(data + LEAD, bytes);
        given.words = words_at(data + words, given.count);
        struct outcomes by = outcomes_in(&given);
        given.by = &by;
        if (batch) {
            hold_batch(&given);
        } else {
            hold(given);
        }
        free(by.table);
        free(given.table);
        free(given.words);
        return 0;
    }
    if (input == JOIN_TABLES) {
        hold_join((struct join){(uint8_t *)data + LEAD, bytes, (uint8_t *)data + words, size - words, number_at(data + 2, 2)});
        return 0;
    }
    if (input == UNPACK_SHEET || input == UNPACK_RECORD) {
        hold_unpack(input == UNPACK_SHEET ? SHEET_FORM : RECORD_FORM, data + words, size - words, number_at(data + 2, 2));
        return 0;
    }
    struct given given = {input, NULL, (size - words) / 4, number_at(data + SHEET_AT, 4), NULL, bytes, number_at(data + 2, 2), NULL};
    given.table = copy(data + LEAD, bytes);
    given.words = words_at(data + words, given.count);
    if (input == APPLY_WINDOWS) {
        windows_hold(given.words, given.count, given.table, given.bytes, given.room, as_it_is, as_it_is);
    } else if (input == EVALUATE_BATCH) {
        hold_batch(&given);
    } else if (input == PACK_SHEET || input == PACK_RECORD) {
        hold_pack(input == PACK_SHEET ? SHEET_FORM : RECORD_FORM, given.words, given.count, given.room);
    } else {
        hold(given);
    }
    free(given.table);
    free(given.words);
    return 0;
}
