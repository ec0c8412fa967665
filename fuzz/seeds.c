// Writes what each stored answer of a file was given as an input of the fuzzer, a file each: FILE FOLDER.
#include "stored.h"

// The sheet's number has 16 bits in a stored answer, where it is the last of the numbers.
static void write_seed(const struct stored *stored, const char *name) {
    FILE *to = fopen(name, "wb");
    size_t given = number_at(stored->at + 4, 2) + 4 * stored->given.count;
    uint8_t lead[LEAD] = {0};
    memcpy(lead, stored->at, SHEET_AT);
    memcpy(lead + LEAD - 2, stored->at + HEAD - 2, 2);
    if (!to || fwrite(lead, 1, LEAD, to) != LEAD || fwrite(stored->at + HEAD, 1, given, to) != given || fclose(to)) {
        perror(name);
        exit(2);
    }
}

// Inputs of windows: two windows, two dates and a whole table, a file for each pair of dates.
static void write_windows(const char *folder) {
    static const uint32_t dates[][6] = {{2026, 8, 17, 2026, 11, 15}, {2000, 2, 29, 2001, 3, 1}, {0, 0, 0, 2026, 11, 15}, {1900, 1, 1, 2199, 12, 31}};
    static const uint32_t list[] = {0x80000006, 0x0000005A, 0x40000007, 0x00000009};
    for (size_t i = 0; i < sizeof dates / sizeof *dates; i++) {
        char name[4096];
        uint8_t input[LEAD + VIERSKOF_TABLE_BYTES + 40] = {0, APPLY_WINDOWS, 1, 0, 1, 0};
        uint8_t *at = input + LEAD + VIERSKOF_TABLE_BYTES;
        for (size_t k = 0; k < 10; k++) {
            uint32_t word = k < 6 ? dates[i][k] : list[k - 6];
            for (size_t byte = 4; byte-- > 0; word >>= 8) at[4 * k + byte] = (uint8_t)word;
        }
        snprintf(name, sizeof name, "%s/windows-%zu", folder, i);
        FILE *to = fopen(name, "wb");
        if (!to || fwrite(input, 1, sizeof input, to) != sizeof input || fclose(to)) {
            perror(name);
            exit(2);
        }
    }
}

// Inputs of tight forms: a sheet and a record.
static void write_tight(const char *folder) {
    static const uint8_t forms[][12] = {{0x88, 0x00, 0x00, 0x30, 0x80, 0x50}, {0xE0, 0x00, 0x70, 0x01, 0x40, 0x5C, 0x00, 0x00, 0x06, 0x00, 0x10, 0x14}};
    static const size_t bytes[] = {6, 12};
    for (size_t i = 0; i < sizeof forms / sizeof *forms; i++) {
        char name[4096];
        uint8_t input[LEAD + 12] = {0, (uint8_t)(UNPACK_SHEET + i), 0, 16};
        memcpy(input + LEAD, forms[i], bytes[i]);
        snprintf(name, sizeof name, "%s/tight-%zu", folder, i);
        FILE *to = fopen(name, "wb");
        if (!to || fwrite(input, 1, LEAD + bytes[i], to) != LEAD + bytes[i] || fclose(to)) {
            perror(name);
            exit(2);
        }
    }
}

// Inputs by levels: the sheet of an Any of three levels that can't be compared, two of them on facts, of which the second is open; each of the six calls.
static void write_levels(const char *folder) {
    static const uint8_t table[] = {0, 0, 0, 5, 0, 50, 0, 0, 0, 0, 0, 0, 1, 0, 0, 1, 0, 0, 2, 0, 2, 0, 0, 0, 3, 3, 0, 1, 2, 3,    4,
                                    0, 1, 2, 3, 4, 1,  1, 4, 4, 4, 2, 4, 2, 4, 4, 3, 4, 4, 3, 4, 4, 4, 4, 4, 4, 0, 0x24};
    static const uint32_t list[] = {0xF0000000, 0xA0000003, 0x80000001, 0, 0x20000005, 0x80000002, 0, 0x20000006, 0x60000003};
    static const enum call calls[] = {EVALUATE, PARTIAL_EVALUATE, PARTIAL_EVALUATE_IN_ORDER, NARROW_RESIDUAL, COMPLETE_RESIDUAL, NARROW_RESIDUAL_IN_ORDER};
    for (size_t i = 0; i < sizeof calls / sizeof *calls; i++) {
        char name[4096];
        size_t first = reads_sheet(calls[i]) ? 1 : 0, count = sizeof list / sizeof *list;
        uint8_t input[LEAD + sizeof table + sizeof list] = {0, (uint8_t)(BY_LEVELS | calls[i]), 2, 0, 0, sizeof table};
        memcpy(input + LEAD, table, sizeof table);
        // Evaluated and completed, both facts are Present.
        if (calls[i] == EVALUATE || calls[i] == COMPLETE_RESIDUAL) input[LEAD + sizeof table - 1] = 0x14;
        uint8_t *at = input + LEAD + sizeof table;
        for (size_t k = first; k < count; k++, at += 4) {
            uint32_t word = list[k];
            for (size_t byte = 4; byte-- > 0; word >>= 8) at[byte] = (uint8_t)word;
        }
        snprintf(name, sizeof name, "%s/levels-%zu", folder, i);
        FILE *to = fopen(name, "wb");
        size_t size = (size_t)(at - input);
        if (!to || fwrite(input, 1, size, to) != size || fclose(to)) {
            perror(name);
            exit(2);
        }
    }
}

// Batches: three requests by a grant, an Any and an All, with an allowance that the second exceeds; by sets of products, and by four levels.
static void write_batches(const char *folder) {
    static const uint8_t levels[] = {0, 0, 0, 4, 0, 32, 0, 0, 0, 0, 0, 1, 1, 1, 0, 1, 2, 2, 0, 1, 2, 3, 0, 1, 2, 3, 1, 1, 2, 3, 2, 2, 2, 3, 3, 3, 3, 3};
    static const uint8_t requests[] = {1, 2, 2, 0x00, 0x10, 0, 0, 0, 2, 2, 1, 0x10, 0, 0, 0, 0, 3, 2, 0, 0, 0, 0, 0, 0};
    static const uint32_t list[] = {6,          0x01000001, 0,          0x02000002, 0,          0x03000003, 0,          0x00010003, 0x88000003, 0,          0x20000005, 0x00020009,
                                    0xA0000002, 0x80000001, 0,          0x50000002, 0x20000000, 0x20000001, 0x80000002, 0,          0x20000002, 0x00030004, 0x90000003, 0x60000001,
                                    0x70000000, 0x60000002};
    for (size_t i = 0; i < 2; i++) {
        char name[4096];
        size_t outcomes = i ? sizeof levels : 0, bytes = outcomes + sizeof requests;
        uint8_t input[LEAD + sizeof levels + sizeof requests + sizeof list] = {0, (uint8_t)((i ? BY_LEVELS : 0) | EVALUATE_BATCH), 0, 16, 0, (uint8_t)bytes, 0, 0, 0, 5};
        memcpy(input + LEAD, levels, outcomes);
        memcpy(input + LEAD + outcomes, requests, sizeof requests);
        uint8_t *at = input + LEAD + bytes;
        for (size_t k = 0; k < sizeof list / sizeof *list; k++, at += 4) {
            uint32_t word = list[k];
            for (size_t byte = 4; byte-- > 0; word >>= 8) at[byte] = (uint8_t)word;
        }
        snprintf(name, sizeof name, "%s/batch-%zu", folder, i);
        FILE *to = fopen(name, "wb");
        size_t size = (size_t)(at - input);
        if (!to || fwrite(input, 1, size, to) != size || fclose(to)) {
            perror(name);
            exit(2);
        }
    }
}

int main(int words, char **word) {
    if (words != 3) return 2;
    write_batches(word[2]);
    write_windows(word[2]);
    write_tight(word[2]);
    write_levels(word[2]);
    struct file file = stored_in(word[1]);
    struct stored stored;
    for (size_t place = 1; next_stored(&file, &stored); place++) {
        char name[4096];
        snprintf(name, sizeof name, "%s/%zu", word[2], place);
        write_seed(&stored, name);
        drop_stored(&stored);
    }
    free(file.bytes);
    return 0;
}
