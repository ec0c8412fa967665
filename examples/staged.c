/*
 * A request decided in stages through the C interface: the relay reduces the sheet with the facts that it holds, the district narrows
 * what is left, and the archive completes it. The record carries the sheet's number on the way, and each station names the sheet
 * that it expects. Direct evaluation with all facts gives the same effect and products. In sheet order the archive's record owes
 * the same obligations too.
 */
#include <inttypes.h>
#include <stdio.h>
#include <stdlib.h>

#include "vierskof.h"

/* All of: products 0003, with obligation 7, where facts 5, 6 and 7 are Present; and products 0003 for anybody. */
static const uint32_t sheet[] = {0x90000002, 0x80100003, 0x00000000, 0x07000000, 0x40000003,
                                 0x20000005, 0x20000006, 0x20000007, 0x60000003};
enum { WORDS = sizeof sheet / sizeof *sheet, NUMBER = 7, ROOM = VIERSKOF_ROOM(WORDS) };

/* Four facts a byte, two bits each from the left: 0 Absent, 1 Present, 2 Unknown. */
static const uint8_t relay[] = {0x00, 0x1A};    /* fact 5 Present, 6 and 7 Unknown */
static const uint8_t district[] = {0x00, 0x26}; /* fact 6 Present, 5 and 7 Unknown */
static const uint8_t archive[] = {0x00, 0x15};  /* all three Present */

/* Shows what a call wrote: the stage, the effect and the products, and the record. A refusal ends the program. */
static size_t written(const char *stage, uint64_t returned, const uint32_t *record) {
    if (vierskof_refusal(returned) != VIERSKOF_ACCEPTED) {
        fprintf(stderr, "%s: refused %" PRIu32 "\n", stage, vierskof_refusal(returned));
        exit(1);
    }
    size_t words = vierskof_value(returned);
    printf("%-8s  ", stage);
    if (vierskof_permits(record, words)) {
        printf("permit %04X ", (unsigned)vierskof_products(record, words));
    } else {
        printf("%-12s", vierskof_is_resolved(record, words) ? "deny" : "pending");
    }
    for (size_t i = 0; i < words; i++) {
        /* A bar stands before the record's tree. */
        printf("%s%08" PRIX32, i == vierskof_tree(record, words) ? " | " : " ", record[i]);
    }
    puts("");
    return words;
}

/* A call that leaves facts open. */
typedef uint64_t call(const uint32_t *, size_t, uint32_t, const uint8_t *, size_t, uint32_t *VIERSKOF_RESTRICT, size_t);

/* The road over the three stations. Its words stand in `completed`. */
static size_t road(call *reduce, call *narrow, uint32_t *completed) {
    /* Each call has an output of its own: none may overlap what it reads. */
    uint32_t reduced[ROOM], narrowed[ROOM];
    size_t words = written("relay", reduce(sheet, WORDS, NUMBER, relay, sizeof relay, reduced, ROOM), reduced);
    words = written("district", narrow(reduced, words, NUMBER, district, sizeof district, narrowed, ROOM), narrowed);
    uint64_t returned = vierskof_complete_residual(narrowed, words, NUMBER, archive, sizeof archive, completed, ROOM);
    return written("archive", returned, completed);
}

int main(void) {
    uint32_t first[ROOM], in_order[ROOM], direct[ROOM];
    size_t words = road(vierskof_partial_evaluate, vierskof_narrow_residual, first);
    size_t ordered = road(vierskof_partial_evaluate_in_order, vierskof_narrow_residual_in_order, in_order);
    size_t at_once = written("at once", vierskof_evaluate(sheet, WORDS, NUMBER, archive, sizeof archive, direct, ROOM), direct);

    bool permits = vierskof_permits(first, words) && vierskof_permits(in_order, ordered) && vierskof_permits(direct, at_once);
    uint16_t products = vierskof_products(direct, at_once);
    bool same = vierskof_products(first, words) == products && vierskof_products(in_order, ordered) == products;
    bool owes = vierskof_carries_obligation(in_order, ordered) == vierskof_carries_obligation(direct, at_once);
    bool numbered = vierskof_sheet_number(first, words) == NUMBER && vierskof_sheet_number(direct, at_once) == NUMBER;
    return permits && same && owes && numbered ? 0 : 1;
}
