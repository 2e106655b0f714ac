/* A night in C: prints the suite of the grammar file that its argument names, or that standard input has.
 *
 *     gcc -I include examples/night.c crates/calls/out/libcalls.a -o night && ./night decks/deck.packed
 */
#include <inttypes.h>
#include <stdio.h>

#include "vanchiluk.h"

/* One octet more than the longest file, so that a longer one is seen to be. */
static uint8_t file[VANCHILUK_MOST_OCTETS + 1];
static uint16_t words[VANCHILUK_MOST_WORDS];
static uint16_t table[VANCHILUK_MOST_TABLE];
static uint8_t marks[VANCHILUK_MOST_RULES];
static uint16_t sentence[VANCHILUK_MOST_NUMBERS];
static uint16_t derivation[VANCHILUK_MOST_NUMBERS];

static int print_refused(const uint64_t answer[4])
{
    printf("refused %" PRIu64 " %" PRIu64 "\n", answer[1], answer[2]);
    return 0;
}

static void print_list(const uint16_t *numbers, uint64_t count)
{
    printf(" %" PRIu64, count);
    for (uint64_t i = 0; i < count; i++)
        printf(" %u", (unsigned)numbers[i]);
}

int main(int count, char **arguments)
{
    uint64_t answer[4];
    FILE *from = count > 1 ? fopen(arguments[1], "rb") : stdin;
    if (!from) {
        perror(arguments[1]);
        return 1;
    }
    size_t octets = fread(file, 1, sizeof file, from);

    vanchiluk_unpack(file, octets, words, VANCHILUK_MOST_WORDS, answer);
    if (answer[0] == VANCHILUK_REFUSED)
        return print_refused(answer);
    size_t word_count = answer[1];

    vanchiluk_tables(words, word_count, table, VANCHILUK_MOST_TABLE, answer);
    if (answer[0] == VANCHILUK_REFUSED)
        return print_refused(answer);
    size_t table_count = answer[1];
    size_t rules = table_count - 5u * words[0];
    printf("suite %u %u %zu\n", (unsigned)words[0], (unsigned)words[1], rules);

    unsigned sentences = 0;
    for (;;) {
        vanchiluk_next(words, word_count, table, table_count, marks, rules, sentence, VANCHILUK_MOST_NUMBERS, derivation,
                       VANCHILUK_MOST_NUMBERS, answer);
        if (answer[0] != VANCHILUK_NEXT)
            break;
        printf("%" PRIu64, answer[1]);
        print_list(sentence, answer[2]);
        print_list(derivation, answer[3]);
        printf("\n");
        sentences++;
    }
    /* With the table that tables wrote, marks for all rules and room for 4,096 numbers, nothing but Finished can come. */
    if (answer[0] == VANCHILUK_REFUSED)
        return print_refused(answer);
    printf("end %u\n", sentences);
    return 0;
}
