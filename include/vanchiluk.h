/* The five calls of Vanchiluk, for C and C++. `rt lib` in crates/calls writes the archive crates/calls/out/libcalls.a, which has them
 * and needs nothing but the C library's memcpy and memset.
 *
 * Each slice is a pointer and a count of elements. A caller owes this, and nothing checks it: no pointer is null, also where the
 * count is 0; each is aligned and points at so many elements; and what a call may write overlaps nothing else that it is lent.
 *
 * `answer` receives four numbers: the kind of the answer, then its values, then zeros.
 *
 *   kind                   answer[1]          answer[2]             answer[3]
 *   VANCHILUK_DONE         length written     0                     0
 *   VANCHILUK_NEXT         target             length of sentence    length of derivation
 *   VANCHILUK_FINISHED     0                  0                     0
 *   VANCHILUK_REFUSED      number             place                 0
 *
 * Every call takes any input, ends, and answers. Where it refuses, and at VANCHILUK_FINISHED, no buffer has changed but `answer`;
 * past the length written a buffer keeps its content. The numbers of the refusals are in README.md. A call keeps nothing and
 * shares nothing with another: calls may run in any number of threads, each with buffers of its own to write, and what is only
 * read may be lent to several.
 */
#ifndef VANCHILUK_H
#define VANCHILUK_H

#include <stddef.h>
#include <stdint.h>

#ifdef __cplusplus
extern "C" {
#endif

enum {
    VANCHILUK_DONE = 0,
    VANCHILUK_NEXT = 1,
    VANCHILUK_FINISHED = 2,
    VANCHILUK_REFUSED = 3
};

/* Room that is always enough. */
enum {
    VANCHILUK_MOST_WORDS = 8707,      /* the words of a grammar, 16 bits each */
    VANCHILUK_MOST_OCTETS = 17417,    /* a file: 3 octets, and two for each word */
    VANCHILUK_MOST_RULES = 256,       /* the marks of a grammar, an octet each */
    VANCHILUK_MOST_TABLE = 896,       /* a table: 5 words for each of 128 nonterminals, 1 for each rule */
    VANCHILUK_MOST_NUMBERS = 4096,    /* a sentence that next hands out, or its derivation, or a list for replay */
    VANCHILUK_MOST_REPLAYED = 131072  /* a sentence that replay writes */
};

/* File to words. Done carries the words written. Refused: 1, 2, 3. */
void vanchiluk_unpack(const uint8_t *file, size_t file_octets,
                      uint16_t *words, size_t words_room,
                      uint64_t answer[4]);

/* Words to file. Done carries the octets written. Refused: 2, 3. */
void vanchiluk_pack(const uint16_t *words, size_t words_count,
                    uint8_t *file, size_t file_room,
                    uint64_t answer[4]);

/* Words to table. Done carries the words written. Refused: 4, 5, 6, 7, 3. */
void vanchiluk_tables(const uint16_t *words, size_t words_count,
                      uint16_t *table, size_t table_room,
                      uint64_t answer[4]);

/* The sentence of the lowest rule whose mark is 0, and its derivation; the marks that are 0 of the rules in the derivation
 * become 1. Next, or Finished where no mark of a rule is 0. Refused: 4, 5, 6, 7, 8, 9, then Finished, then 3, 10. */
void vanchiluk_next(const uint16_t *words, size_t words_count,
                    const uint16_t *table, size_t table_count,
                    uint8_t *marks, size_t marks_count,
                    uint16_t *sentence, size_t sentence_room,
                    uint16_t *derivation, size_t derivation_room,
                    uint64_t answer[4]);

/* A list of rule numbers to the sentence of that leftmost derivation. Done carries the tokens written. Refused: 4, 12, 11, 3. */
void vanchiluk_replay(const uint16_t *words, size_t words_count,
                      const uint16_t *list, size_t list_count,
                      uint16_t *sentence, size_t sentence_room,
                      uint64_t answer[4]);

#ifdef __cplusplus
}
#endif

#endif
