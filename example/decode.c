/* Puts the direction of direction.txt into the words of book.txt, by the calls of phrase.h. Build and run: example/run-c */
#include "phrase.h"

#include <stdio.h>

#define STATES 512

static uint8_t text[1 << 20];
static int32_t book[1 << 18];
static int64_t store[8 * STATES];

/* The bytes of a file; 0 where it cannot be opened. */
static size_t bytes_of(const char *name)
{
    FILE *file = fopen(name, "rb");
    if (!file)
        return 0;
    size_t count = fread(text, 1, sizeof text, file);
    fclose(file);
    return count;
}

static int refused(long long number)
{
    printf("refused: %lld (docs/REFUSALS.md)\n", number);
    return 1;
}

int main(void)
{
    int64_t numbers = phrase_read_book(text, bytes_of("book.txt"), book, sizeof book / sizeof *book);
    if (numbers < 0)
        return refused(-numbers);

    uint16_t direction[32];
    int64_t count = phrase_read_direction(text, bytes_of("direction.txt"), direction, 32);
    if (count < 0)
        return refused(-count);

    uint16_t steps[3 * 32], words[8 * 32];
    int64_t report[8]; /* score, steps, words, states; triples, pairs, words, u */
    int32_t refusal = phrase_decode(book, (size_t)numbers, direction, (size_t)count, -1, steps, 3 * 32, words, 8 * 32,
                                    store, 8 * STATES, report, 8);
    if (refusal)
        return refused(refusal);

    printf("score %lld, %lld states entered\n", (long long)report[0], (long long)report[3]);
    for (int64_t k = 0; k < report[1]; k++)
        printf("words %u to %u by entry %u\n", steps[3 * k], steps[3 * k + 1], steps[3 * k + 2]);
    printf("in the carer's language:");
    for (int64_t k = 0; k < report[2]; k++)
        printf(" %u", words[k]);
    printf("\n");
    printf("of the %lld words the book knows %lld after the two words before them, %lld after one, %lld by themselves and %lld not at all\n",
           (long long)report[2], (long long)report[4], (long long)report[5], (long long)report[6], (long long)report[7]);
    return 0;
}
