// Replays files of stored answers on the C interface, packs and unpacks the words of some, decides some in batches, and says how many calls were made. Under valgrind's memcheck the output of each call is
// undefined beforehand, so that a call that reads it, or leaves a word of its record unwritten, is seen.
#include <valgrind/memcheck.h>

#include "batch.h"
#include "stored.h"
#include "tight.h"
#include "windows.h"

// A word for each place of an output, so that one that is wrongly written or moved shows.
static void fill(uint32_t *out, size_t count) {
    for (size_t i = 0; i < count; i++) out[i] = 0x0F0F0F0F + (uint32_t)i;
}

// Whether the rest of an output, from this word on, is as it was: still undefined, and the same words.
static int left_alone(uint32_t *out, size_t from, size_t count) {
    uint8_t bits[sizeof(uint32_t)];
    for (size_t i = from; i < count; i++) {
        // 1 where memcheck runs; without it there is nothing to ask.
        if (VALGRIND_GET_VBITS(out + i, bits, sizeof bits) == 1 && number_at(bits, sizeof bits) != UINT32_MAX) return 0;
        VALGRIND_MAKE_MEM_DEFINED(out + i, sizeof *out);
        if (out[i] != 0x0F0F0F0F + (uint32_t)i) return 0;
    }
    return 1;
}

// The first words of the output, or the halves of a set's numbers.
static int as_answered(const struct stored *stored, const void *out) {
    for (size_t i = 0; i < stored->answered; i++) {
        const uint64_t *set = out;
        const uint32_t *words = out;
        uint32_t word = counts(stored->given.call) ? (uint32_t)(set[i / 2] >> (i % 2 ? 0 : 32)) : words[i];
        if (word != stored->answer[i]) return 0;
    }
    return 1;
}

// Whether the sheet in force is the stored one. There is no output.
static int finds(const struct stored *stored) {
    return stored->answered == 1 && returned(&stored->given, NULL) == ((uint64_t)stored->number << 32 | stored->answer[0]);
}

// Whether the call answers as stored, and leaves the rest of its output as it was.
static int agrees(const struct stored *stored) {
    if (stored->given.call == SHEET_IN_FORCE) return finds(stored);
    size_t bytes = out_bytes(&stored->given);
    size_t count = bytes / sizeof(uint32_t);
    if (stored->answered > count) return 0;
    uint32_t *out = block(bytes);
    fill(out, count);
    VALGRIND_MAKE_MEM_UNDEFINED(out, bytes);
    uint64_t told = returned(&stored->given, out);
    int same = told == ((uint64_t)stored->number << 32 | stored->value);
    same = same && as_answered(stored, out) && left_alone(out, stored->answered, count);
    free(out);
    return same;
}

// ---- windows

enum { DRAWN = 50000 };

static void unset(uint8_t *bytes, size_t count) { VALGRIND_MAKE_MEM_UNDEFINED(bytes, count); }

// Still undefined, where memcheck runs.
static void left_unset(uint8_t *bytes, size_t count) {
    uint8_t bits[1024];
    for (size_t at = 0; at < count; at += sizeof bits) {
        size_t part = count - at < sizeof bits ? count - at : sizeof bits;
        if (VALGRIND_GET_VBITS(bytes + at, bits, part) != 1) return;
        for (size_t i = 0; i < part; i++) SO(bits[i] == UINT8_MAX);
        VALGRIND_MAKE_MEM_DEFINED(bytes + at, part);
    }
}

static uint32_t draw(uint64_t *seed, uint32_t bound) {
    *seed = *seed * 6364136223846793005 + 1442695040888963407;
    return (uint32_t)(*seed >> 33) % bound;
}

// ---- tight forms

// The words of one stored answer in so many are packed.
enum { PACKED = 8 };

// How many forms were accepted and refused.
static size_t unpackings[2];

static void unpack(enum form form, const uint8_t *bytes, size_t count, size_t room) {
    uint32_t *out;
    uint64_t told = unpack_once(form, bytes, count, room, unset, left_unset, &out);
    bytes_come_back(form, bytes, count, told, out, unset, left_unset);
    unpackings[vierskof_refusal(told) != 0]++;
    free(out);
}

// The words of a stored answer, with some room and with enough; their tight form, whole, with a bit turned, cut short, and with a byte more.
static void tight(const struct given *given, uint64_t *seed) {
    enum form form = reads_sheet(given->call) ? SHEET_FORM : RECORD_FORM;
    uint8_t *out;
    size_t most = VIERSKOF_TIGHT_ROOM(given->count), words = given->count + draw(seed, 3);
    uint64_t told = pack_once(form, given->words, given->count, draw(seed, (uint32_t)most + 1), unset, left_unset, &out);
    words_come_back(form, given->words, given->count, told, unset, left_unset);
    free(out);
    told = pack_once(form, given->words, given->count, most, unset, left_unset, &out);
    size_t bytes = vierskof_value(told);
    if (bytes) {
        uint8_t *form_at = copy(out, bytes + 1 <= most ? bytes + 1 : bytes), *at = form_at + draw(seed, (uint32_t)bytes);
        unpack(form, form_at, bytes, words);
        *at ^= (uint8_t)(1U << draw(seed, 8));
        unpack(form, form_at, bytes, words);
        unpack(form, form_at, draw(seed, (uint32_t)bytes), words);
        if (bytes < most) {
            form_at[bytes] = (uint8_t)draw(seed, 2);
            unpack(form, form_at, bytes + 1, words);
        }
        free(form_at);
    }
    free(out);
}

// ---- batches

// How many batches were run, and how many of their requests were decided and refused.
static size_t batches, replies_met[2];

// The sheet of a stored evaluation, with its number and before another one of that number, and its table in up to three requests, one perhaps of a group
// without a sheet. Allowance and room are drawn around what three evaluations take.
static void batch(const struct stored *stored, uint64_t *seed) {
    const struct given *given = &stored->given;
    uint32_t number = given->number & 0xFFFF, entry[] = {1U << 24 | number, 5};
    size_t count = draw(seed, 4), taken = given->bytes < VIERSKOF_TABLE_BYTES ? given->bytes : VIERSKOF_TABLE_BYTES;
    struct batch batch = {given->by, entry, 2, NULL, given->count + 3, NULL, VIERSKOF_REQUEST_WORDS * count, draw(seed, 3) ? draw(seed, 60) : VIERSKOF_ALLOWANCE, 0, 0};
    batch.sheets = block(batch.sheet_words * sizeof *batch.sheets);
    batch.sheets[0] = number << 16 | (uint32_t)given->count;
    if (given->count) memcpy(batch.sheets + 1, given->words, given->count * sizeof *batch.sheets);
    batch.sheets[given->count + 1] = number << 16 | 1;
    batch.sheets[given->count + 2] = 0x70000000;
    batch.requests = block(batch.request_words * sizeof *batch.requests);
    memset(batch.requests, 0, batch.request_words * sizeof *batch.requests);
    for (size_t i = 0; i < count; i++) {
        uint32_t *request = batch.requests + VIERSKOF_REQUEST_WORDS * i;
        request[0] = (draw(seed, 8) ? 1U : 2U) << 24 | (uint32_t)given->bytes;
        request[1] = 4 + draw(seed, 8);
        for (size_t k = 0; k < taken; k++) request[2 + k / 4] |= (uint32_t)given->table[k] << (24 - 8 * (k % 4));
    }
    batch.places = count + draw(seed, 2);
    batch.room = draw(seed, 3 * (uint32_t)stored->answered + 3);
    uint64_t *replies;
    uint32_t *out;
    if (vierskof_refusal(batch_holds(&batch, unset, left_unset, &replies, &out)) == 0)
        for (size_t i = 0; i < count; i++) replies_met[vierskof_refusal(replies[i]) != 0] += replies[i] != 0;
    batches++;
    free(replies);
    free(out);
    free(batch.sheets);
    free(batch.requests);
}

// Lists, dates and tables of which about half are accepted, and how many calls these are.
static size_t windows(void) {
    uint64_t seed = 1;
    size_t accepted = 0;
    for (size_t i = 0; i < DRAWN; i++) {
        size_t count = DATES + 2 * draw(&seed, 34) + !draw(&seed, 30), bytes = draw(&seed, 20) ? 256 : draw(&seed, 300);
        uint32_t *given = block(count * sizeof *given);
        uint8_t *table = block(bytes);
        for (size_t k = 0; k < DATES; k += 3) {
            int known = draw(&seed, 10) != 0;
            given[k] = known ? 1900 + draw(&seed, 300) : 0;
            given[k + 1] = known ? 1 + draw(&seed, 12) : 0;
            given[k + 2] = known ? 1 + draw(&seed, draw(&seed, 20) ? 28 : 32) : 0;
        }
        for (size_t k = DATES; k < count; k++) {
            uint32_t first = draw(&seed, 300);
            given[k] = (k - DATES) % 2 ? first << 16 | (first + draw(&seed, 65236)) : draw(&seed, 4) << 30 | draw(&seed, 1024);
        }
        for (size_t k = 0; k < bytes; k++) table[k] = (uint8_t)draw(&seed, 256) & (draw(&seed, 100) ? 0x55 : 0xAA);
        accepted += windows_hold(given, count, table, bytes, draw(&seed, 20) ? 256 + draw(&seed, 3) : draw(&seed, 256), unset, left_unset) == 0;
        free(given);
        free(table);
    }
    SO(accepted > DRAWN / 4);
    return DRAWN;
}

int main(int files, char **names) {
    size_t calls = windows();
    uint64_t seed = 1;
    for (int i = 1; i < files; i++) {
        struct file file = stored_in(names[i]);
        struct stored stored;
        for (size_t place = 1; next_stored(&file, &stored); place++, calls++) {
            if (!agrees(&stored)) {
                fprintf(stderr, "%s: answer %zu differs\n", names[i], place);
                return 1;
            }
            if (stored.given.call != SHEET_IN_FORCE && place % PACKED == 0) tight(&stored.given, &seed);
            if (stored.given.call == EVALUATE && stored.given.count <= VIERSKOF_SHEET_WORDS + 1) batch(&stored, &seed);
            drop_stored(&stored);
        }
        free(file.bytes);
    }
    SO(files < 2 || (unpackings[0] > 100 && unpackings[1] > 100));
    SO(files < 2 || (replies_met[0] > 50 && replies_met[1] > 50));
    printf("%zu calls, %zu tight forms and %zu batches", calls, unpackings[0] + unpackings[1], batches);
    return calls ? 0 : 2;
}
