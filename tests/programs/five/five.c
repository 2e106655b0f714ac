/* The five calls from C on D: a line for each, the four numbers of the answer and what was written. */
#include <inttypes.h>
#include <stdio.h>

#include "vanchiluk.h"

static const uint16_t deck[23] = {3, 4, 0, 0, 1, 1, 0, 3, 1, 3, 0, 1, 2, 2, 4, 1, 1, 5, 2, 0, 2, 1, 6};
static const uint16_t derived[3] = {0, 2, 4};
static uint8_t file[60], marks[6] = {1, 0, 0, 0, 0, 0};
static uint16_t words[30], table[30], sentence[10], derivation[10];
static uint64_t answer[4];

static void show(const char *name)
{
    printf("%s %" PRIu64 " %" PRIu64 " %" PRIu64 " %" PRIu64, name, answer[0], answer[1], answer[2], answer[3]);
}

static void show_words(const uint16_t *list, uint64_t count)
{
    printf(" :");
    for (uint64_t i = 0; i < count; i++)
        printf(" %u", (unsigned)list[i]);
}

static void show_octets(const uint8_t *list, uint64_t count)
{
    printf(" :");
    for (uint64_t i = 0; i < count; i++)
        printf(" %u", (unsigned)list[i]);
}

int main(void)
{
    vanchiluk_pack(deck, 23, file, 60, answer);
    show("pack");
    show_octets(file, answer[1]);
    vanchiluk_unpack(file, answer[1], words, 30, answer);
    show("\nunpack");
    show_words(words, answer[1]);
    vanchiluk_tables(words, 23, table, 30, answer);
    show("\ntables");
    show_words(table, answer[1]);
    vanchiluk_next(words, 23, table, 21, marks, 6, sentence, 10, derivation, 10, answer);
    show("\nnext");
    show_words(sentence, answer[2]);
    show_words(derivation, answer[3]);
    show_octets(marks, 6);
    vanchiluk_replay(words, 23, derived, 3, sentence, 10, answer);
    show("\nreplay");
    show_words(sentence, answer[1]);
    vanchiluk_replay(words, 23, derived, 2, sentence, 10, answer);
    show("\nreplay");
    vanchiluk_replay(words, 23, derived, 3, sentence, 0, answer);
    show("\nreplay");
    printf("\n");
    return 0;
}
