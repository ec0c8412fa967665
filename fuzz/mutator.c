// Changes of the fuzzer's inputs that keep most trees whole, so that many get past the reader. The others are the fuzzer's own.
#include "calls.h"
#include "tight.h"

size_t LLVMFuzzerMutate(uint8_t *data, size_t size, size_t max);

struct input {
    uint8_t *data;
    size_t size;
    size_t max;
    uint64_t seed;
};

// A number below the bound.
static uint32_t draw(struct input *input, uint32_t bound) {
    input->seed = input->seed * 6364136223846793005 + 1442695040888963407;
    return (uint32_t)(input->seed >> 33) % bound;
}

static void put(uint8_t *at, uint32_t number, size_t bytes) {
    for (size_t i = bytes; i-- > 0; number >>= 8) at[i] = (uint8_t)number;
}

// Opens a gap of bytes, all 0. Whether there was room.
static int gap(struct input *input, size_t at, size_t bytes) {
    if (at > input->size || input->size + bytes > input->max) return 0;
    memmove(input->data + at + bytes, input->data + at, input->size - at);
    memset(input->data + at, 0, bytes);
    input->size += bytes;
    return 1;
}

static void cut(struct input *input, size_t at, size_t bytes) {
    memmove(input->data + at, input->data + at + bytes, input->size - at - bytes);
    input->size -= bytes;
}

static void insert(struct input *input, size_t at, uint32_t word) {
    if (gap(input, at, 4)) put(input->data + at, word, 4);
}

// Most facts and outcomes are small, so that they meet each other often.
static uint32_t fact(struct input *input) { return draw(input, 16) ? draw(input, 6) : draw(input, 1024); }

static uint32_t two_facts(struct input *input) { return fact(input) << 16 | fact(input); }

static uint32_t condition(struct input *input) { return draw(input, 8) ? 0x20000000 | fact(input) : draw(input, 2) << 28; }

static uint32_t policy(struct input *input) { return draw(input, 3) ? 0x60000000 | draw(input, 8) : 0x70000000; }

// Nodes with one arm around a node: one, or about as many as there may be levels.
static void wrap(struct input *input, size_t at, uint32_t word) {
    for (uint32_t left = draw(input, 4) ? 1 : 26 + draw(input, 8); left > 0; left--) insert(input, at, word);
}

// Another condition in a leaf's place, or one around it.
static void change_condition(struct input *input, size_t at) {
    switch (draw(input, 4)) {
    case 0: wrap(input, at, draw(input, 2) ? 0x30000000 : 0x40000001); break;
    case 1:
        insert(input, at, condition(input));
        insert(input, at, 0x40000002 + (draw(input, 2) << 28));
        break;
    default: put(input->data + at, condition(input), 4);
    }
}

// Another policy in a leaf's place, or one around it.
static void change_policy(struct input *input, size_t at, int sheet) {
    switch (draw(input, sheet ? 4 : 6)) {
    case 0: wrap(input, at, draw(input, 2) ? 0x90000001 : 0xA0000001); break;
    case 1:
        insert(input, at, policy(input));
        insert(input, at, (uint32_t[]){0x90000002, 0xA0000002, 0xB0000000}[draw(input, 3)]);
        break;
    case 2: put(input->data + at, policy(input), 4); break;
    case 3:
        put(input->data + at, 0x80000000 | draw(input, 8), 4);
        insert(input, at + 4, condition(input));
        insert(input, at + 4, 0);
        break;
    case 4:
        put(input->data + at, 0xC0000000 | draw(input, 8), 4);
        insert(input, at + 4, 0);
        break;
    default:
        put(input->data + at, 0xD0000000, 4);
        insert(input, at + 4, 0);
        insert(input, at + 4, 0);
    }
}

// One more arm, or All for Any.
static void change_list(struct input *input, size_t at, uint32_t word) {
    int conditions = word >> 28 < 6;
    if (draw(input, 3) == 0) {
        put(input->data + at, word ^ (conditions ? 0x10000000 : 0x30000000), 4);
    } else {
        put(input->data + at, word + 1, 4);
        insert(input, at + 4, conditions ? condition(input) : policy(input));
    }
}

// More obligations of a node 8 or 12: four, often one four times, or one as many times as the node can hold.
static void more_obligations(struct input *input, size_t at, uint32_t word) {
    uint32_t held = word >> 20 & 0x7F, most = word >> 28 == 8 ? 64 : 127;
    uint32_t same = 0x01010101 * draw(input, 64);
    if (held % 4 == 0 && held < most && draw(input, 4) == 0) {
        put(input->data + at, word + ((most - held) << 20), 4);
        // 127 leave a byte of the last word unused.
        insert(input, at + 8 + held, most % 4 ? same & 0xFFFFFF00 : same);
        for (uint32_t left = (most - held - 1) / 4; left > 0; left--) insert(input, at + 8 + held, same);
    } else {
        put(input->data + at, word + 0x400000, 4);
        insert(input, at + 8, draw(input, 2) ? same : 0x00010203 + 0x04040404 * draw(input, 16));
    }
}

// Another outcome or shape, or more obligations.
static void change_grant(struct input *input, size_t at, uint32_t word) {
    if (draw(input, 2)) {
        put(input->data + at, word ^ (draw(input, 4) ? 1U << draw(input, 3) : 0x08000000), 4);
    } else {
        more_obligations(input, at, word);
    }
}

// Two more facts of a node 12 or 13, or two more consulted entries, of any of the four presences.
static void change_facts(struct input *input, size_t at, uint32_t word) {
    uint32_t kind = word >> 28;
    size_t count = kind == 12 ? at + 4 : kind == 13 ? at + 8 : at;
    size_t facts = count + 4 + (kind == 12 ? ((word >> 20 & 0x7F) + 3) / 4 * 4 : 0);
    if (facts > input->size) return;
    put(input->data + count, number_at(input->data + count, 4) + 2, 4);
    insert(input, facts, two_facts(input) | (kind > 13 ? draw(input, 4) << 30 | draw(input, 4) << 14 : 0));
}

static void change_word(struct input *input, size_t at, int sheet) {
    uint32_t word = number_at(input->data + at, 4);
    // Now and then a damaged word, for the reader.
    if (draw(input, 8) == 0) {
        put(input->data + at, word ^ 1U << draw(input, 32), 4);
        return;
    }
    switch (word >> 28) {
    case 0:
    case 1:
    case 2: change_condition(input, at); break;
    case 3: cut(input, at, 4); break;
    case 4:
    case 5:
    case 9:
    case 10: change_list(input, at, word); break;
    case 6:
    case 7: change_policy(input, at, sheet); break;
    case 8: change_grant(input, at, word); break;
    case 11: put(input->data + at, draw(input, 2) ? 0x90000002 : 0xA0000002, 4); break;
    case 12: (draw(input, 2) ? more_obligations : change_facts)(input, at, word); break;
    default: change_facts(input, at, word);
    }
}

// One more entry of a register, few of them apart, or a damaged one, or a new register; and another group and day.
static void change_register(struct input *input, size_t bytes, size_t words, size_t count) {
    uint32_t days[] = {0, 1, 100, 0x80000000, UINT32_MAX};
    size_t at = words + 8 * draw(input, (uint32_t)count / 2 + 1);
    if (bytes >= 8) {
        put(input->data + LEAD, draw(input, 3), 4);
        put(input->data + LEAD + 4, days[draw(input, 5)], 4);
    } else if (gap(input, LEAD + bytes, 8 - bytes)) {
        put(input->data + 4, 8, 2);
        return;
    }
    switch (draw(input, 16)) {
    case 0: input->size = words; break;
    case 1:
        if (at + 4 <= input->size) put(input->data + at, number_at(input->data + at, 4) ^ 1U << draw(input, 32), 4);
        break;
    default:
        insert(input, at, days[draw(input, 5)]);
        insert(input, at, draw(input, 3) << 24 | (draw(input, 4) ? 0 : 1U << 23) | draw(input, 400));
    }
}

// Whether an input of this number has a sheet, in words or in the tight form.
static int has_sheet(uint32_t number) { return reads_sheet(number) || number == PACK_SHEET || number == UNPACK_SHEET; }

// Words become their tight form, or a tight form its words, if they have one; the input is then one of the other call.
static void turn(struct input *input, size_t words, uint32_t number) {
    enum form form = has_sheet(number) ? SHEET_FORM : RECORD_FORM;
    size_t left = input->size - words, room = input->max - words;
    if (number == PACK_SHEET || number == PACK_RECORD) {
        uint32_t *given = words_at(input->data + words, left / 4);
        uint64_t told = packed(form, given, left / 4, input->data + words, room);
        if (vierskof_refusal(told) == 0) {
            input->size = words + vierskof_value(told);
            put(input->data, form == SHEET_FORM ? UNPACK_SHEET : UNPACK_RECORD, 2);
        }
        free(given);
        return;
    }
    uint32_t *out = block(room / 4 * sizeof *out);
    uint64_t told = unpacked(form, input->data + words, left, out, room / 4);
    if (vierskof_refusal(told) == 0) {
        for (size_t i = 0; i < vierskof_value(told); i++) put(input->data + words + 4 * i, out[i], 4);
        input->size = words + 4 * (size_t)vierskof_value(told);
        put(input->data, form == SHEET_FORM ? PACK_SHEET : PACK_RECORD, 2);
    }
    free(out);
}

// A bit of a tight form turned, its end cut off, or a byte more.
static void change_bits(struct input *input, size_t words) {
    size_t left = input->size - words;
    switch (draw(input, 4)) {
    case 0:
        if (left) cut(input, input->size - 1, 1);
        break;
    case 1:
        if (gap(input, input->size, 1)) input->data[input->size - 1] = (uint8_t)(draw(input, 2) ? 0 : draw(input, 256));
        break;
    default:
        if (left) input->data[words + draw(input, (uint32_t)left)] ^= (uint8_t)(1U << draw(input, 8));
    }
}

// The lead of a Pending record without consulted entries, of this sheet.
static uint32_t lead_of(uint32_t number) { return 0xF0000000 | (number & 0xFFFF) << 12; }

// Another sheet's number, most often of the record too.
static void change_number(struct input *input, size_t words, uint32_t call) {
    uint32_t numbers[] = {0, 1, 7, 4095, 4096, 65535, 65536, 65543, UINT32_MAX};
    uint32_t number = draw(input, 8) ? numbers[draw(input, 9)] : draw(input, 65536);
    put(input->data + SHEET_AT, number, 4);
    if (has_sheet(call) || input->size < words + 4 || draw(input, 4) == 0) return;
    uint32_t lead = number_at(input->data + words, 4);
    if (lead >> 28 >= 14) put(input->data + words, (lead & 0xF0000FFF) | (lead_of(number) & 0x0FFFF000), 4);
}

// Another call. A sheet becomes a record by a lead before it, and such a record a sheet again; in the tight form the lead has the same bits.
static void change_call(struct input *input, size_t words, uint32_t call) {
    uint32_t other = draw(input, INPUTS);
    uint32_t plain = lead_of(number_at(input->data + SHEET_AT, 4));
    int lead = input->size >= words + 4 && number_at(input->data + words, 4) == plain;
    put(input->data, other, 2);
    if (has_sheet(call) && !has_sheet(other)) insert(input, words, plain);
    if (!has_sheet(call) && has_sheet(other) && lead) cut(input, words, 4);
}

// Another reading of a fact, or four more or fewer.
static void change_table(struct input *input, size_t bytes) {
    uint32_t change = draw(input, 5);
    if (bytes && change > 1) {
        uint8_t *at = input->data + LEAD + draw(input, (uint32_t)bytes);
        uint32_t shift = 2 * draw(input, 4);
        *at = (uint8_t)((*at & ~(3U << shift)) | draw(input, 3) << shift);
    } else if (bytes && change) {
        cut(input, LEAD + bytes - 1, 1);
        put(input->data + 4, (uint32_t)bytes - 1, 2);
    } else if (gap(input, LEAD + bytes, 1)) {
        put(input->data + 4, (uint32_t)bytes + 1, 2);
    }
}

// Another number of a date, another window, one window more, or another table or room, about as the rules have them.
static void change_windows(struct input *input, size_t words, size_t bytes, size_t count) {
    static const uint32_t least[] = {1899, 0, 0}, range[] = {303, 14, 33};
    uint32_t place = draw(input, (uint32_t)count + 2);
    size_t at = words + 4 * (size_t)place;
    if (place >= count) {
        if (draw(input, 2)) {
            change_table(input, bytes);
        } else if (gap(input, words + 4 * count, 8)) {
            put(input->data + words + 4 * count, draw(input, 4) << 30 | fact(input), 4);
        }
    } else if (place < 6) {
        put(input->data + at, draw(input, 8) ? least[place % 3] + draw(input, range[place % 3]) : 0, 4);
    } else if (place % 2 == 0) {
        put(input->data + at, draw(input, 4) << 30 | fact(input), 4);
    } else {
        uint32_t first = draw(input, 400);
        put(input->data + at, first << 16 | (first + draw(input, 65000)), 4);
    }
}

// ---- levels

// Whether a level is at most another: in a chain, among sets of four products, among three levels between two, and where two of these three are in a row.
static int at_most(uint32_t kind, uint32_t one, uint32_t other) {
    switch (kind) {
    case 0: return one <= other;
    case 1: return (one & other) == one;
    default: return one == other || one == 0 || other == 4 || (kind == 3 && one == 1 && other == 2);
    }
}

// The nearest bound of two levels: from below, or from above.
static uint32_t bound(uint32_t kind, uint32_t levels, uint32_t one, uint32_t other, int above) {
    uint32_t found = levels;
    for (uint32_t level = 0; level < levels; level++) {
        int bounds = above ? at_most(kind, one, level) && at_most(kind, other, level) : at_most(kind, level, one) && at_most(kind, level, other);
        if (bounds && (found == levels || (above ? at_most(kind, level, found) : at_most(kind, found, level)))) found = level;
    }
    return found;
}

// Another outcome table, with two of its levels exchanged, and turned about now and then.
static void other_levels(struct input *input, size_t bytes, size_t outcomes) {
    uint32_t kind = draw(input, 4), levels = kind == 0 ? 1 + draw(input, 16) : kind == 1 ? 16 : 5;
    uint32_t one = draw(input, levels), other = draw(input, levels), turned = draw(input, 2);
    size_t square = (size_t)levels * levels;
    cut(input, LEAD + LEVELS_LEAD, outcomes);
    put(input->data + 4, (uint32_t)(bytes - outcomes), 2);
    put(input->data + LEAD + 4, 0, 2);
    if (!gap(input, LEAD + LEVELS_LEAD, 2 * square)) return;
    put(input->data + 4, (uint32_t)(bytes - outcomes + 2 * square), 2);
    put(input->data + LEAD, levels, 4);
    put(input->data + LEAD + 4, (uint32_t)(2 * square), 2);
    for (uint32_t a = 0; a < levels; a++) {
        for (uint32_t b = 0; b < levels; b++) {
            uint32_t from[] = {a == one ? other : a == other ? one : a, b == one ? other : b == other ? one : b};
            for (uint32_t half = 0; half < 2; half++) {
                uint32_t found = bound(kind, levels, from[0], from[1], (half ^ turned) != 0);
                uint32_t named = found == one ? other : found == other ? one : found;
                input->data[LEAD + LEVELS_LEAD + half * square + a * levels + b] = (uint8_t)named;
            }
        }
    }
}

// A table's count, or a byte of it, or two, so that a damaged operation still commutes.
static void damage_levels(struct input *input, size_t outcomes) {
    uint32_t levels = number_at(input->data + LEAD, 4);
    uint8_t *table = input->data + LEAD + LEVELS_LEAD;
    if (outcomes == 0 || levels == 0 || levels > 16 || draw(input, 6) == 0) {
        put(input->data + LEAD, draw(input, 8) ? draw(input, 19) : levels | 0x10000, 4);
        return;
    }
    uint32_t one = draw(input, levels), other = draw(input, levels), half = draw(input, 2) * levels * levels;
    uint8_t level = (uint8_t)draw(input, levels + !draw(input, 8));
    if (half + one * levels + other < outcomes) table[half + one * levels + other] = level;
    if (draw(input, 2) && half + other * levels + one < outcomes) table[half + other * levels + one] = level;
}

// A call by levels: another outcome table, or a damaged one, the facts behind it, another call, room or number, or a word. Most outcomes are levels.
static void change_by_levels(struct input *input, size_t bytes, size_t words, size_t count) {
    static const enum call calls[2][3] = {{NARROW_RESIDUAL, COMPLETE_RESIDUAL, NARROW_RESIDUAL_IN_ORDER}, {EVALUATE, PARTIAL_EVALUATE, PARTIAL_EVALUATE_IN_ORDER}};
    if (bytes < LEVELS_LEAD) {
        if (gap(input, LEAD + bytes, LEVELS_LEAD - bytes)) put(input->data + 4, LEVELS_LEAD, 2);
        return;
    }
    size_t left = bytes - LEVELS_LEAD, told = number_at(input->data + LEAD + 4, 2), outcomes = told < left ? told : left;
    enum call call = number_at(input->data, 2) % BY_LEVELS;
    int sheet = !writes(call) || reads_sheet(call);
    switch (draw(input, 12)) {
    case 0: other_levels(input, bytes, outcomes); break;
    case 1: damage_levels(input, outcomes); break;
    case 2:
        // A byte of the outcome table becomes the first of the facts, or the reverse.
        put(input->data + LEAD + 4, (uint32_t)(draw(input, 2) ? outcomes + 1 : outcomes - (outcomes > 0)), 2);
        break;
    case 3:
    case 4:
        if (left > outcomes && draw(input, 4)) {
            uint8_t *at = input->data + LEAD + LEVELS_LEAD + outcomes + draw(input, (uint32_t)(left - outcomes));
            uint32_t shift = 2 * draw(input, 4);
            *at = (uint8_t)((*at & ~(3U << shift)) | draw(input, 3) << shift);
        } else if (gap(input, LEAD + bytes, 1)) {
            put(input->data + 4, (uint32_t)bytes + 1, 2);
        }
        break;
    case 5: {
        int other = draw(input, 2) == 1;
        uint32_t plain = lead_of(number_at(input->data + SHEET_AT, 4));
        put(input->data, BY_LEVELS | calls[other][draw(input, 3)], 2);
        if (sheet && !other) insert(input, words, plain);
        if (!sheet && other && count && number_at(input->data + words, 4) == plain) cut(input, words, 4);
        break;
    }
    case 6: put(input->data + 2, draw(input, draw(input, 2) ? 16 : 2000), 2); break;
    case 7: change_number(input, words, sheet ? EVALUATE : COMPLETE_RESIDUAL); break;
    default:
        if (count) change_word(input, words + 4 * draw(input, (uint32_t)count), sheet);
    }
}

// A word of some sheet of a list, whose count then goes along.
static void change_sheet(struct input *input, size_t list) {
    size_t lead = 0, seen = 0;
    for (size_t at = list; at + 4 <= input->size; at += 4 + 4 * number_at(input->data + at + 2, 2))
        if (draw(input, (uint32_t)++seen) == 0) lead = at;
    if (!lead) return;
    size_t count = number_at(input->data + lead + 2, 2), left = (input->size - lead) / 4 - 1, size = input->size;
    if (count > left) count = left;
    if (count) change_word(input, lead + 4 + 4 * draw(input, (uint32_t)count), 1);
    put(input->data + lead + 2, (uint32_t)(count + input->size / 4 - size / 4), 2);
}

// A batch, whose requests are so many bytes at `at`: another request, or a field of one, another allowance or room, an entry more, a sheet more, or a word of
// one. Groups, days and numbers are few, so that most sheets are in force.
static void change_batch(struct input *input, size_t at, size_t bytes, size_t words, size_t count) {
    if (count == 0) {
        insert(input, words, 0);
        return;
    }
    uint32_t entries = number_at(input->data + words, 4) & 0x3FF;
    size_t list = words + 4 + 4 * (entries < count ? entries : count - 1);
    switch (draw(input, 14)) {
    case 0:
        if (gap(input, at + bytes, REQUEST_BYTES)) put(input->data + 4, number_at(input->data + 4, 2) + REQUEST_BYTES, 2);
        break;
    case 1:
        if (bytes) {
            cut(input, at + bytes - 1, 1);
            put(input->data + 4, number_at(input->data + 4, 2) - 1, 2);
        }
        break;
    case 2:
    case 3:
    case 4:
        if (bytes >= REQUEST_BYTES) {
            uint8_t *request = input->data + at + REQUEST_BYTES * draw(input, (uint32_t)bytes / REQUEST_BYTES);
            switch (draw(input, 5)) {
            case 0: request[0] = (uint8_t)draw(input, 4); break;
            case 1: request[1] = (uint8_t)draw(input, 3); break;
            case 2: request[2] = (uint8_t)(draw(input, 4) ? draw(input, 6) : 252 + draw(input, 4)); break;
            default: {
                uint8_t *byte = request + 3 + draw(input, 5);
                uint32_t shift = 2 * draw(input, 4);
                *byte = (uint8_t)((*byte & ~(3U << shift)) | draw(input, draw(input, 8) ? 2 : 4) << shift);
            }
            }
        }
        break;
    case 5:
    case 6: put(input->data + SHEET_AT, draw(input, 8) ? draw(input, draw(input, 2) ? 12 : 200) : draw(input, 8) << 17 | draw(input, 0x20000), 4); break;
    case 7: put(input->data + 2, draw(input, draw(input, 2) ? 16 : 400), 2); break;
    case 8:
        insert(input, words + 4, draw(input, 3));
        insert(input, words + 4, draw(input, 4) << 24 | (draw(input, 8) ? 0 : 1U << 23) | draw(input, 4));
        put(input->data + words, entries + (draw(input, 16) ? 2 : 1), 4);
        break;
    case 9:
        insert(input, list, policy(input));
        insert(input, list, draw(input, 4) << 16 | (draw(input, 16) ? 1 : draw(input, 3)));
        break;
    default: change_sheet(input, list);
    }
}

size_t LLVMFuzzerCustomMutator(uint8_t *data, size_t size, size_t max, unsigned seed) {
    struct input input = {data, size, max, seed};
    if (size < LEAD || draw(&input, 4) == 0) return LLVMFuzzerMutate(data, size, max);
    size_t bytes = table_bytes(data, size), words = LEAD + bytes, count = (size - words) / 4;
    size_t outcomes = LEVELS_LEAD + (bytes < LEVELS_LEAD ? 0 : number_at(data + LEAD + 4, 2));
    if (number_at(data, 2) == (BY_LEVELS | EVALUATE_BATCH) && outcomes <= bytes && draw(&input, 4)) {
        change_batch(&input, LEAD + outcomes, bytes - outcomes, words, count);
        return input.size;
    }
    if (number_at(data, 2) & BY_LEVELS) {
        change_by_levels(&input, bytes, words, count);
        return input.size;
    }
    uint32_t number = number_at(data, 2) % INPUTS, change = draw(&input, 8);
    if (number == APPLY_WINDOWS && change) {
        change_windows(&input, words, bytes, count);
        return input.size;
    }
    if (number == EVALUATE_BATCH && change) {
        change_batch(&input, LEAD, bytes, words, count);
        return input.size;
    }
    if (number == SHEET_IN_FORCE && change) {
        change_register(&input, bytes, words, count);
        return input.size;
    }
    int bits = number == UNPACK_SHEET || number == UNPACK_RECORD;
    if (change && (bits || number == PACK_SHEET || number == PACK_RECORD) && draw(&input, bits ? 3 : 6) == 0) {
        turn(&input, words, number);
        return input.size;
    }
    if (bits && change > 1) {
        change_bits(&input, words);
        return input.size;
    }
    switch (change) {
    case 0: change_call(&input, words, number); break;
    case 1:
        if (draw(&input, 2)) {
            put(data + 2, draw(&input, draw(&input, 2) ? 16 : 2000), 2);
        } else {
            change_number(&input, words, number);
        }
        break;
    case 2:
    case 3: change_table(&input, bytes); break;
    default:
        if (count) change_word(&input, words + 4 * draw(&input, (uint32_t)count), has_sheet(number));
    }
    return input.size;
}
