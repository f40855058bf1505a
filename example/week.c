/* A home's book over a week, revised in the list that it was read into. Build and run: example/run-week */
#include "phrase.h"

#include <stdio.h>

#define STATES 512

static uint8_t text[1 << 20];
static int32_t book[1 << 18];
static int64_t store[8 * STATES];

/* The day, and what the drawer of the direction 11 13 does with the book as it stands. */
static void show(const char *day, int64_t used)
{
    static const uint16_t direction[] = {11, 13};
    uint16_t steps[3 * 2], words[8 * 2];
    int64_t report[8];
    if (used < 0) {
        printf("%s: refused, %lld; the book is as before\n", day, (long long)-used);
        return;
    }
    int32_t refusal = phrase_decode(book, (size_t)used, direction, 2, -1, steps, 3 * 2, words, 8 * 2, store, 8 * STATES, report, 8);
    printf("%s: %d entries, %lld numbers in use, ", day, book[4], (long long)used);
    if (refusal)
        printf("locked (%d)\n", refusal);
    else
        printf("opens: %u %u\n", words[0], words[1]);
}

int main(void)
{
    const size_t places = sizeof book / sizeof *book;
    /* A P line as loaded numbers: kind 2, one source word, one target word, the words, the score. */
    static const int32_t phrase[] = {2, 1, 1, 13, 103, -25};
    FILE *file = fopen("book.txt", "rb");
    if (!file)
        return 1;
    int64_t used = phrase_read_book(text, fread(text, 1, sizeof text, file), book, places);
    fclose(file);
    show("Monday, the book is read", used);
    if (used < 0)
        return 1;
    used = phrase_add_entry(book, places, (size_t)used, phrase, 6);
    show("Tuesday, a phrase is added", used);
    used = phrase_remove_entry(book, places, (size_t)used, 2);
    show("Thursday, entry 2 is withdrawn, and the new one is entry 3", used);
    show("Friday, entry 4 is to be withdrawn, which there is no more", phrase_remove_entry(book, places, (size_t)used, 4));
    used = phrase_remove_entry(book, places, (size_t)used, 3);
    show("Saturday, the new phrase is withdrawn", used);
    return 0;
}
