// Replays a file of stored joins on the C interface, and says how many were made. Of each: five 16-bit numbers (room, bytes of one table, of the other,
// number, bytes written), the tables and the bytes written, all most significant byte first. Under valgrind's memcheck the output is undefined beforehand.
#include <valgrind/memcheck.h>

#include "stored.h"

enum { JOIN_HEAD = 10 };

// Whether the join answers as stored, and leaves the rest of its output as it was: still undefined, and the same bytes.
static int agrees(const struct join *join, uint64_t told, const uint8_t *answer, size_t answered) {
    uint8_t *out = block(join->room), bits;
    for (size_t i = 0; i < join->room; i++) out[i] = (uint8_t)(0xC3 + i);
    VALGRIND_MAKE_MEM_UNDEFINED(out, join->room);
    int same = joined(join, out) == told && answered <= join->room;
    for (size_t i = 0; same && i < answered; i++) same = out[i] == answer[i];
    for (size_t i = answered; same && i < join->room; i++) {
        // 1 where memcheck runs; without it there is nothing to ask.
        if (VALGRIND_GET_VBITS(out + i, &bits, 1) == 1 && bits != UINT8_MAX) same = 0;
        VALGRIND_MAKE_MEM_DEFINED(out + i, 1);
        same = same && out[i] == (uint8_t)(0xC3 + i);
    }
    free(out);
    return same;
}

int main(int words, char **word) {
    if (words != 2) return 2;
    struct file file = stored_in(word[1]);
    size_t joins = 0;
    while (file.at < file.length) {
        const uint8_t *at = file.bytes + file.at;
        size_t left = file.length - file.at, numbers[JOIN_HEAD / 2] = {0};
        for (size_t i = 0; i < JOIN_HEAD / 2 && left >= JOIN_HEAD; i++) numbers[i] = number_at(at + 2 * i, 2);
        size_t one = JOIN_HEAD, two = one + numbers[1], answer = two + numbers[2], end = answer + numbers[4];
        if (left < end) {
            fprintf(stderr, "stored joins that end within one\n");
            return 2;
        }
        struct join join = {copy(at + one, numbers[1]), numbers[1], copy(at + two, numbers[2]), numbers[2], numbers[0]};
        if (!agrees(&join, (uint64_t)numbers[3] << 32 | numbers[4], at + answer, numbers[4])) {
            fprintf(stderr, "%s: join %zu differs\n", word[1], joins + 1);
            return 1;
        }
        free(join.one);
        free(join.two);
        file.at += end;
        joins++;
    }
    free(file.bytes);
    printf("%zu joins", joins);
    return joins ? 0 : 2;
}
