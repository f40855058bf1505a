/* A medication round: four drawers' directions decoded together, with one book, width and store, and the sheet of the round. Build and run:
 * example/run-round */
#include "phrase.h"

#include <stdio.h>

#define DRAWERS 4
#define STATES 512

static uint8_t text[1 << 20];
static int32_t book[1 << 18];
static int64_t store[8 * STATES];
static uint8_t sheet[2048];

int main(void)
{
    /* One direction behind the other, and where each ends. Word 13 is in no phrase of the book, and 0 is no word. */
    static const uint16_t directions[] = {11, 12, 12, 12, 13, 11, 0};
    static const size_t ends[DRAWERS] = {2, 3, 5, 7};
    static const size_t falling[DRAWERS] = {2, 1, 5, 7};
    uint16_t steps[96 * DRAWERS], words[256 * DRAWERS];
    int64_t answers[9 * DRAWERS];
    FILE *file = fopen("book.txt", "rb");
    if (!file)
        return 1;
    int64_t used = phrase_read_book(text, fread(text, 1, sizeof text, file), book, sizeof book / sizeof *book);
    fclose(file);
    if (used < 0)
        return 1;
    int32_t refusal = phrase_decode_round(book, (size_t)used, directions, 7, ends, DRAWERS, -1, steps, 96 * DRAWERS, words, 256 * DRAWERS,
                                          store, 8 * STATES, answers, 9 * DRAWERS);
    printf("the round: %d\n", refusal);
    for (int k = 0; k < DRAWERS; k++) {
        const int64_t *answer = answers + 9 * k;
        const uint16_t *said = words + 256 * k;
        printf("drawer %d ", k + 1);
        if (answer[0]) {
            printf("stays locked (%lld)\n", (long long)answer[0]);
            continue;
        }
        printf("opens, score %lld:", (long long)answer[1]);
        for (int64_t i = 0; i < answer[3]; i++)
            printf(" %u", said[i]);
        printf("\n");
    }
    refusal = phrase_decode_round(book, (size_t)used, directions, 7, falling, DRAWERS, -1, steps, 96 * DRAWERS, words, 256 * DRAWERS,
                                  store, 8 * STATES, answers, 9 * DRAWERS);
    printf("the same with an end that falls: %d; every list is as before\n", refusal);
    int64_t length = phrase_round_sheet(book, (size_t)used, directions, 7, ends, DRAWERS, -1, steps, 96 * DRAWERS, words, 256 * DRAWERS,
                                        store, 8 * STATES, answers, 9 * DRAWERS, sheet, sizeof sheet);
    if (length < 0)
        return 1;
    fwrite(sheet, 1, (size_t)length, stdout);
    return 0;
}
