// A file of stored answers: a line of text, then of each answer eight 16-bit numbers (call, room, table bytes, words, number, value, answer words, sheet
// number), the table, the words, and the words that stand first in the output afterwards; all most significant byte first. A register's value, which 16
// bits may not hold, is the one answer word. A call by an outcome table has that in front of its table, as calls.h says.
#ifndef STORED_H
#define STORED_H

#include "calls.h"

enum { HEAD = 16 };

struct stored {
    // The call to its last given word.
    const uint8_t *at;
    struct given given;
    // The outcome table that the call goes by, if it does.
    struct outcomes by;
    uint32_t number;
    uint32_t value;
    uint32_t *answer;
    size_t answered;
};

struct file {
    uint8_t *bytes;
    size_t length;
    size_t at;
};

static inline struct file stored_in(const char *name) {
    FILE *from = fopen(name, "rb");
    if (!from || fseek(from, 0, SEEK_END)) {
        perror(name);
        exit(2);
    }
    struct file file = {.length = (size_t)ftell(from)};
    file.bytes = block(file.length);
    rewind(from);
    if (fread(file.bytes, 1, file.length, from) != file.length) {
        perror(name);
        exit(2);
    }
    fclose(from);
    const uint8_t *line = memchr(file.bytes, '\n', file.length);
    file.at = line ? (size_t)(line - file.bytes) + 1 : file.length;
    return file;
}

// The next answer, in blocks of its own. There is none at the file's end; a file that ends within one is no such file.
static inline int next_stored(struct file *file, struct stored *stored) {
    size_t left = file->length - file->at;
    if (left == 0) return 0;
    const uint8_t *at = file->bytes + file->at;
    uint32_t numbers[HEAD / 2] = {0};
    for (size_t i = 0; i < HEAD / 2 && left >= HEAD; i++) numbers[i] = number_at(at + 2 * i, 2);
    size_t table = HEAD, words = table + numbers[2], answer = words + 4 * numbers[3], end = answer + 4 * numbers[6];
    if (left < end) {
        fprintf(stderr, "stored answers that end within one\n");
        exit(2);
    }
    *stored = (struct stored){
        .at = at,
        .given = {numbers[0], words_at(at + words, numbers[3]), numbers[3], numbers[7], copy(at + table, numbers[2]), numbers[2], numbers[1], NULL},
        .number = numbers[4],
        .value = numbers[5],
        .answer = words_at(at + answer, numbers[6]),
        .answered = numbers[6],
    };
    file->at += end;
    if (numbers[0] & BY_LEVELS) {
        stored->given.call = numbers[0] % BY_LEVELS;
        stored->by = outcomes_in(&stored->given);
        stored->given.by = &stored->by;
    }
    return 1;
}

static inline void drop_stored(struct stored *stored) {
    free(stored->given.table);
    free(stored->given.words);
    free(stored->by.table);
    free(stored->answer);
}

#endif
