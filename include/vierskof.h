/*
 * The calls of libvierskof.a, which `rt lib` makes in crates/vierskof. For C99 and C++11. What sheets, records and tables look
 * like is in docs/RULES.md: a table has two bits for each fact, fact 0 the top two of byte 0; 0 Absent, 1 Present, 2 Unknown.
 * A fact past its end is Absent; where it is consulted, the record's entry has presence 3, silent, and not 0.
 *
 * A slice passes as a pointer and an element count. A call returns one number: that of the refusal times 2^32, or 0 when
 * it is accepted, and the call's value below. A refused call leaves the output as it was, and its value
 * is 0.
 *
 * An output, words, bytes or set, overlaps no input: a record that is written over its own input is wrong, and nothing tells.
 * Inputs may overlap each other.
 *
 * No call allocates, blocks, keeps state or needs more than 256 KiB of stack, so calls on separate outputs may run at the
 * same time.
 */
#ifndef VIERSKOF_H
#define VIERSKOF_H

#include <stdbool.h>
#include <stddef.h>
#include <stdint.h>

#define VIERSKOF_VERSION_MAJOR 0
#define VIERSKOF_VERSION_MINOR 1
#define VIERSKOF_VERSION_PATCH 0
#define VIERSKOF_VERSION "0.1.0"

#if !defined(__cplusplus)
#define VIERSKOF_RESTRICT restrict
#elif defined(__GNUC__) || defined(_MSC_VER)
#define VIERSKOF_RESTRICT __restrict
#else
#define VIERSKOF_RESTRICT
#endif

#ifdef __cplusplus
extern "C" {
#endif

enum {
    VIERSKOF_SHEET_WORDS = 4096,   /* the longest sheet */
    VIERSKOF_RECORD_WORDS = 16384, /* the longest record */
    VIERSKOF_TABLE_BYTES = 256,    /* the longest fact table */
    VIERSKOF_SET_NUMBERS = 16,     /* a set of facts, fact 0 the top bit of the first number */
    VIERSKOF_REGISTER_WORDS = 512, /* the longest register of sheets, two words an entry */
    VIERSKOF_NO_SHEET = 65536,     /* in the place of a sheet's number: none */
    VIERSKOF_REQUEST_WORDS = 66,   /* a request of a batch */
    VIERSKOF_BATCH_REQUESTS = 64,  /* the most requests of a batch */
    VIERSKOF_ALLOWANCE = 65535,    /* the greatest allowance of a batch */
    VIERSKOF_OUTCOME_LEVELS = 16,  /* the most levels of an outcome table */
    VIERSKOF_WINDOWS = 32,         /* the most windows of a list */
    VIERSKOF_TIGHT_BYTES = 65536   /* the most bytes that are unpacked */
};

/* An output of so many words is room enough for the calls on a sheet of `words` words and on what comes of it. */
#define VIERSKOF_ROOM(words) (3 * (size_t)(words) + 513)

/* An output of so many bytes is room enough for the tight form of `words` words: it is never longer than four bytes a word. */
#define VIERSKOF_TIGHT_ROOM(words) (4 * (size_t)(words))

/* Why a call is turned back. Of several causes a call names the first in this order: 21, 1, 2, then 3 and 4 from fact 0 on,
   then 5 to 8 from the first word on, then 10, then 16, then 17, then 11. 9 is not used. A register has 15 alone. A join has an order of
   its own: 2 in either table, 3 in either, 14, then 11; for windows it is 12, 13, 3, 11. Packing has 1, then 5 to 8 from the
   first word on, then 10, then 11. Unpacking has 1; then field by field 19 if the bits end before it is complete, 5 or 8 for
   its value and, right after a kind, 7; then 20; then 11. A batch has 21, 1, 15, 6, 11; a request of it is refused as the direct
   call is, with 18 before 11. Later versions may have further numbers. */
enum vierskof_cause {
    VIERSKOF_ACCEPTED = 0,
    VIERSKOF_REFUSED_LENGTH = 1,            /* the sheet or record has no word or too many, or a tight form over 65,536 bytes; a batch
                                               is over 64 requests or no whole ones, or its allowance is over 65,535 */
    VIERSKOF_REFUSED_TABLE_LENGTH = 2,      /* the fact table has more than 256 bytes */
    VIERSKOF_REFUSED_TABLE_FIELD = 3,       /* a field of the table is 3, which is no presence */
    VIERSKOF_REFUSED_UNKNOWN_FACT = 4,      /* a fact is Unknown, where evaluating or completing needs all */
    VIERSKOF_REFUSED_KIND = 5,              /* a node's kind may not stand where it stands */
    VIERSKOF_REFUSED_WORDS_END = 6,         /* the words end before the record or tree, or a batch's list of sheets, is complete */
    VIERSKOF_REFUSED_LEVEL = 7,             /* a node is nested on a 33rd level; an outcome that is no level of a table is 8 */
    VIERSKOF_REFUSED_FIELD = 8,             /* a field holds a number that it may not hold */
    VIERSKOF_REFUSED_WORDS_AFTER_TREE = 10, /* there are words after the tree */
    VIERSKOF_REFUSED_ROOM = 11,             /* the result has no room in the output, or exceeds a limit; or replies have too few places */
    VIERSKOF_REFUSED_DATE = 12,             /* a date doesn't exist or lies outside the years 1900 to 2199 */
    VIERSKOF_REFUSED_WINDOWS = 13,          /* the list of windows isn't as it has to be, or its table isn't 256 bytes */
    VIERSKOF_REFUSED_CLASH = 14,            /* a fact is Present in one of two joined tables and Absent in the other */
    VIERSKOF_REFUSED_REGISTER = 15,         /* the words are no register of sheets */
    VIERSKOF_REFUSED_SHEET_NUMBER = 16,     /* the record is of another sheet, or the number is one that no record carries */
    VIERSKOF_REFUSED_CONTRADICTION = 17,    /* a narrowing's table has as Present what the record consulted as Absent, or the reverse */
    VIERSKOF_REFUSED_ALLOWANCE = 18,        /* a request's evaluation visits more nodes than the allowance has left */
    VIERSKOF_REFUSED_BITS_END = 19,         /* the bits of a tight form end before a field is complete */
    VIERSKOF_REFUSED_FILLER = 20,           /* a tight form's last byte isn't filled with 0 bits, or a byte follows, 0 too */
    VIERSKOF_REFUSED_OUTCOME_TABLE = 21     /* the outcome table is not accepted */
};

/* The number of the refusal, 0 when the call was accepted; and the call's value. */
static inline uint32_t vierskof_refusal(uint64_t returned) { return (uint32_t)(returned >> 32); }
static inline uint32_t vierskof_value(uint64_t returned) { return (uint32_t)returned; }

/* Decides a sheet with a known table. Value: the words written. `number` is the sheet's, 0 for one without, and the record
   carries it; over 65535 it is refused by 16. `out` overlaps neither `sheet` nor `facts`. */
uint64_t vierskof_evaluate(const uint32_t *sheet, size_t words, uint32_t number, const uint8_t *facts, size_t bytes,
                           uint32_t *VIERSKOF_RESTRICT out, size_t room);

/* Reduces a sheet with a table that may leave facts open. Value: the words written. `number` is as above. `out` overlaps
   neither `sheet` nor `facts`. A fact past the table's end is Absent: a table of all that is not known says Unknown (2) of each
   fact. */
uint64_t vierskof_partial_evaluate(const uint32_t *sheet, size_t words, uint32_t number, const uint8_t *facts, size_t bytes,
                                   uint32_t *VIERSKOF_RESTRICT out, size_t room);

/* Narrows a record by a table of further facts, which may leave facts open as well. Value: the words written. `number` is that
   of the sheet that the record is expected to be of, and what is written carries it again; a record with another number is
   refused by 16. Expected 0 takes only records without a number. A table that has a fact as Present which the record
   consulted as Absent, or the reverse, is refused by 17, also of a Resolved record; Unknown, and facts past the table's end,
   contradict nothing. `out` overlaps neither `record` nor `facts`: a record is not
   narrowed in place. */
uint64_t vierskof_narrow_residual(const uint32_t *record, size_t words, uint32_t number, const uint8_t *facts, size_t bytes,
                                  uint32_t *VIERSKOF_RESTRICT out, size_t room);

/* The same two in sheet order: a list that stays open holds its arms where the sheet has them, an All up to and including its
   first resolved deny. Where no table contradicts the one that completes it, a record that this pair alone has made is
   completed to the clause of direct evaluation, obligations and shape too, but for fact lists and the facts consulted, and one
   that both pairs have made to its effect and products. */
uint64_t vierskof_partial_evaluate_in_order(const uint32_t *sheet, size_t words, uint32_t number, const uint8_t *facts,
                                            size_t bytes, uint32_t *VIERSKOF_RESTRICT out, size_t room);
uint64_t vierskof_narrow_residual_in_order(const uint32_t *record, size_t words, uint32_t number, const uint8_t *facts,
                                           size_t bytes, uint32_t *VIERSKOF_RESTRICT out, size_t room);

/* Completes a record with a known table. Value: the words written. `number` is the expected one, as for a narrowing. `out`
   overlaps neither `record` nor `facts`. */
uint64_t vierskof_complete_residual(const uint32_t *record, size_t words, uint32_t number, const uint8_t *facts, size_t bytes,
                                    uint32_t *VIERSKOF_RESTRICT out, size_t room);

/* The same six by an outcome table: an outcome is then the number of a level, and no set of products. `levels` is 1 to 16;
   `outcomes` has a byte for each ordered pair of levels, the first one slowest: the level in which the two meet, and after all
   of these so the one in which they join, 2 * levels * levels bytes. Refused by 21, before all else, unless both operations
   stay among the levels, are commutative and associative, and absorb each other; 0 levels are refused too. Level 0 may be the
   greatest, and the operations need not distribute. An outcome in the words that is no level is refused by 8, where it stands. The calls
   of a chain, direct evaluation included, are given the same table. All else is as in the call of the same name. `out` overlaps
   no input, `outcomes` included. */
uint64_t vierskof_evaluate_by_levels(uint32_t levels, const uint8_t *outcomes, size_t outcome_bytes, const uint32_t *sheet,
                                     size_t words, uint32_t number, const uint8_t *facts, size_t bytes,
                                     uint32_t *VIERSKOF_RESTRICT out, size_t room);
uint64_t vierskof_partial_evaluate_by_levels(uint32_t levels, const uint8_t *outcomes, size_t outcome_bytes,
                                             const uint32_t *sheet, size_t words, uint32_t number, const uint8_t *facts,
                                             size_t bytes, uint32_t *VIERSKOF_RESTRICT out, size_t room);
uint64_t vierskof_narrow_residual_by_levels(uint32_t levels, const uint8_t *outcomes, size_t outcome_bytes,
                                            const uint32_t *record, size_t words, uint32_t number, const uint8_t *facts,
                                            size_t bytes, uint32_t *VIERSKOF_RESTRICT out, size_t room);
uint64_t vierskof_complete_residual_by_levels(uint32_t levels, const uint8_t *outcomes, size_t outcome_bytes,
                                              const uint32_t *record, size_t words, uint32_t number, const uint8_t *facts,
                                              size_t bytes, uint32_t *VIERSKOF_RESTRICT out, size_t room);
uint64_t vierskof_partial_evaluate_in_order_by_levels(uint32_t levels, const uint8_t *outcomes, size_t outcome_bytes,
                                                      const uint32_t *sheet, size_t words, uint32_t number,
                                                      const uint8_t *facts, size_t bytes,
                                                      uint32_t *VIERSKOF_RESTRICT out, size_t room);
uint64_t vierskof_narrow_residual_in_order_by_levels(uint32_t levels, const uint8_t *outcomes, size_t outcome_bytes,
                                                     const uint32_t *record, size_t words, uint32_t number,
                                                     const uint8_t *facts, size_t bytes,
                                                     uint32_t *VIERSKOF_RESTRICT out, size_t room);

/* The facts that a sheet names, or the tree of a record of any number. Value: how many. Refused: an empty set. `numbers` is 16;
   a set of another length is left as it was. `set` doesn't overlap the words. */
uint64_t vierskof_required_facts(const uint32_t *sheet, size_t words, uint64_t *VIERSKOF_RESTRICT set, size_t numbers);
uint64_t vierskof_required_residual_facts(const uint32_t *record, size_t words, uint64_t *VIERSKOF_RESTRICT set, size_t numbers);

/* Whether a record's tree is a permit or a deny, and whether it has obligations. Value: 0 or 1. There is no output. */
uint64_t vierskof_is_permit_constant(const uint32_t *record, size_t words);
uint64_t vierskof_is_deny_constant(const uint32_t *record, size_t words);
uint64_t vierskof_carries_obligation(const uint32_t *record, size_t words);

/* Which sheet is in force for a group on a day. An entry of the register is two words: group (8), withdrawn (1), zero (7),
   sheet number (16); effective day (32). Days are counted from 1900-01-01, which is day 0. In force is the latest entry of the
   group that is not withdrawn and whose day is not after `day`, on equal days the one with the greater number. Value: its
   sheet number, or VIERSKOF_NO_SHEET exactly if there is none. Refused by 15 alone, before any search: an odd count of words or
   over 512, a zero field that isn't 0, or one group and number twice. There is no output. */
uint64_t vierskof_sheet_in_force(const uint32_t *entries, size_t words, uint32_t group, uint32_t day);

/* Decides a batch of requests, each by the sheet in force and as vierskof_evaluate with that sheet's number does, within an
   allowance of visited nodes, 0 to 65,535. Value: the words written in all. `entries` is a register, as above. `sheets` are handed
   over one after the other: number (16), word count (16), and so many words; the first of a number counts, faulty or not, and
   one that decides nothing is not judged. `requests` are 0 to 64, of 66 words each: group (8), length of the table in bytes (24);
   day (32); then 64 words of a known table, the most significant byte first, of which bytes past the length are ignored.

   A node counts each time that it is visited: a Grant 1 and its condition's nodes, Not 1 and its arm's, a list 1 and its
   arms', the All of policies up to and including a deny, the Any of policies every arm, lists of conditions up to the arm that
   decides, and OrElse's fallback only after a deny. There are never more than the sheet has words.

   Reply i is 0 if no sheet is in force for request i or that sheet isn't in the list, before its table is read; or the number of
   its refusal times 2^32; or nodes * 65,536 + words written. A request is refused as the direct call is, a length over 256 by 2;
   then by 18 if it visits more nodes than remain; then by 11 if its record has no room in what is left of the output. Refused, it
   takes nothing from the allowance and writes nothing, and the later requests are still tried. The records stand one after the
   other from the start of `out`; later words, and later places of `replies`, are left as they were.

   The batch itself is refused, nothing is decided, and `replies` and `out` are as they were: by 1 for over 64 requests, a partial
   one or an allowance over 65,535, then by 15 for a faulty register, then by 6 if the list of sheets ends early, then by 11
   for fewer places than requests. `replies` and `out` overlap no input and not each other. */
uint64_t vierskof_evaluate_batch(const uint32_t *entries, size_t entry_words, const uint32_t *sheets, size_t sheet_words,
                                 const uint32_t *requests, size_t request_words, uint32_t allowance,
                                 uint64_t *VIERSKOF_RESTRICT replies, size_t places,
                                 uint32_t *VIERSKOF_RESTRICT out, size_t room);

/* The same by an outcome table, one for the whole batch: refused by 21 before all else if it is not accepted. */
uint64_t vierskof_evaluate_batch_by_levels(uint32_t levels, const uint8_t *outcomes, size_t outcome_bytes,
                                           const uint32_t *entries, size_t entry_words, const uint32_t *sheets,
                                           size_t sheet_words, const uint32_t *requests, size_t request_words,
                                           uint32_t allowance, uint64_t *VIERSKOF_RESTRICT replies, size_t places,
                                           uint32_t *VIERSKOF_RESTRICT out, size_t room);

/* Of a reply, which vierskof_refusal reads as well: the nodes that were visited, and the words of the record; 0 where it isn't
   decided. */
static inline uint32_t vierskof_reply_nodes(uint64_t reply) { return vierskof_value(reply) >> 16; }
static inline uint32_t vierskof_reply_words(uint64_t reply) { return vierskof_value(reply) & 0xFFFF; }

/* Joins two tables, which may leave facts open: Unknown yields to the other table's reading, equal readings stay, and Present
   against Absent is refused. Past its end a table reads Absent. Value: the bytes written, as many as the longer table has.
   `out` overlaps neither table; VIERSKOF_TABLE_BYTES are room enough. */
uint64_t vierskof_join_tables(const uint8_t *one, size_t one_bytes, const uint8_t *two, size_t two_bytes,
                              uint8_t *VIERSKOF_RESTRICT out, size_t room);

/* Sets facts of a table by the age of a reading. Value: the bytes written, 256. A window is two words: verdict (1; 0 closed,
   1 open), unit (1; 0 days, 1 completed years), zero (20), fact (10); first and last age (16 each), both included. `windows`
   holds 0 to 32 of them, two words each, `facts` 256 bytes. A date is year, month and day, or unknown with all three 0. A fact
   that some window names becomes Present if an open window of it holds the age and no closed one does, else Absent, and Unknown
   if a date is; the order of the windows doesn't matter. Other facts keep their field. `out` overlaps neither `windows` nor
   `facts`: a table is not set in place. */
uint64_t vierskof_apply_windows(const uint32_t *windows, size_t words, uint32_t year, uint32_t month, uint32_t day,
                                uint32_t today_year, uint32_t today_month, uint32_t today_day, const uint8_t *facts,
                                size_t bytes, uint8_t *VIERSKOF_RESTRICT out, size_t room);

/* The tight form of a sheet or of a record, for a narrow link: one run of bits, most significant first, every field of the
   words in order without zero fields and unused tails; an absent label, reason or denied outcome is one bit; the last byte is
   filled with 0 bits. Value: the bytes written. VIERSKOF_TIGHT_ROOM of the words is room enough. `out` doesn't overlap the
   words. */
uint64_t vierskof_pack_sheet(const uint32_t *sheet, size_t words, uint8_t *VIERSKOF_RESTRICT out, size_t room);
uint64_t vierskof_pack_record(const uint32_t *record, size_t words, uint8_t *VIERSKOF_RESTRICT out, size_t room);

/* The words of a tight form. Value: the words written. Packed words come back the same, and bytes that are accepted are those
   that their words are packed as. More words than a sheet or record has are refused by 11, as too small an output is:
   VIERSKOF_SHEET_WORDS or VIERSKOF_RECORD_WORDS are room enough. A run doesn't say whether it is a sheet or a record, but its
   first four bits are 14 or 15 in a record alone. `out` doesn't overlap the bytes. */
uint64_t vierskof_unpack_sheet(const uint8_t *bytes, size_t count, uint32_t *VIERSKOF_RESTRICT out, size_t room);
uint64_t vierskof_unpack_record(const uint8_t *bytes, size_t count, uint32_t *VIERSKOF_RESTRICT out, size_t room);

/*
 * Readers of a record that a call wrote or accepted. They judge nothing; of other words they say something or other, but
 * read none past the last. Of 0 words, the value of a refused call, none is resolved or permits.
 */

/* Whether the record is decided, and doesn't wait for facts. */
static inline bool vierskof_is_resolved(const uint32_t *record, size_t words) { return words > 0 && record[0] >> 28 == 14; }

/* The number of its sheet, 0 for one without. */
static inline uint16_t vierskof_sheet_number(const uint32_t *record, size_t words) {
    return words > 0 ? (uint16_t)(record[0] >> 12 & 0xFFFF) : (uint16_t)0;
}

/* Where its tree begins, after the lead and the facts consulted, two a word. */
static inline size_t vierskof_tree(const uint32_t *record, size_t words) {
    size_t at = words > 0 ? 1 + ((record[0] & 0xFFF) + 1) / 2 : 0;
    return at < words ? at : words;
}

/* Whether it is decided and permits. */
static inline bool vierskof_permits(const uint32_t *record, size_t words) {
    size_t tree = vierskof_tree(record, words);
    return vierskof_is_resolved(record, words) && tree < words && record[tree] >> 28 == 12;
}

/* The products that it permits, product 0 the lowest bit; none where it doesn't permit. By an outcome table, the level; but 0, which
   is a level too, where it doesn't permit: ask vierskof_permits first. */
static inline uint16_t vierskof_products(const uint32_t *record, size_t words) {
    return vierskof_permits(record, words) ? (uint16_t)(record[vierskof_tree(record, words)] & 0xFFFF) : (uint16_t)0;
}

#ifdef __cplusplus
}
#endif

#endif
