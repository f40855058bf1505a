/* A supplier's language model, an ARPA text, imported to a home's book through a word list. Build and run: example/run-model */
#include "phrase.h"

#include <stdio.h>
#include <string.h>

#define STATES 512

/* Line k spells word k. */
static const char spelling[] = "take\none\ntablet\ntablets\n";

/* Of source word 13 the phrases' own scores prefer "tablets". */
static const char text[] = "B,0,-10,-500\n"
                           "P,1,1,11,1,-20\n"
                           "P,1,1,12,2,-20\n"
                           "P,1,1,13,3,-30\n"
                           "P,1,1,13,4,-20\n";

static const char model[] = "\\data\\\n"
                            "ngram 1=7\n"
                            "ngram 2=4\n"
                            "ngram 3=1\n"
                            "\n"
                            "\\1-grams:\n"
                            "-1.9 <unk>\n"
                            "-99 <s> -0.3\n"
                            "-0.7 </s>\n"
                            "-0.8 take -0.2\n"
                            "-0.9 one -0.2\n"
                            "-1.1 tablet\n"
                            "-1.2 tablets\n"
                            "\n"
                            "\\2-grams:\n"
                            "-0.1 <s> take\n"
                            "-0.3 take one -0.1\n"
                            "-0.2 one tablet\n"
                            "-0.4 tablet </s>\n"
                            "\n"
                            "\\3-grams:\n"
                            "-0.0496 take one tablet\n"
                            "\n"
                            "\\end\\\n";

/* Its word is not in the word list. */
static const char other[] = "\\data\\\nngram 1=1\n\\1-grams:\n-1.3 pill\n\\end\\\n";

static int32_t book[1 << 10];
static int64_t store[8 * STATES];

static int64_t import_model(const char *arpa, int64_t used)
{
    return phrase_import_arpa((const uint8_t *)arpa, strlen(arpa), (const uint8_t *)spelling, strlen(spelling), book,
                              sizeof book / sizeof *book, (size_t)used);
}

/* A word as the word list spells it. */
static void print_word(unsigned word)
{
    const char *line = spelling;
    while (--word > 0)
        line = strchr(line, '\n') + 1;
    printf(" %.*s", (int)strcspn(line, "\n"), line);
}

/* What was done, and what the direction 11 12 13 is then. */
static void show(const char *done, int64_t used)
{
    static const uint16_t direction[] = {11, 12, 13};
    uint16_t steps[3 * 3], words[8 * 3];
    int64_t report[8];
    if (used < 0) {
        printf("%s: refused, %lld; the book is as before\n", done, (long long)-used);
        return;
    }
    printf("%s: %lld numbers in use, u is %d, ", done, (long long)used, book[3]);
    int32_t refusal = phrase_decode(book, (size_t)used, direction, 3, -1, steps, 3 * 3, words, 8 * 3, store, 8 * STATES, report, 8);
    if (refusal) {
        printf("locked (%d)\n", refusal);
        return;
    }
    printf("score %lld:", (long long)report[0]);
    for (int64_t k = 0; k < report[2]; k++)
        print_word(words[k]);
    printf("\n");
}

int main(void)
{
    int64_t used = phrase_read_book((const uint8_t *)text, strlen(text), book, sizeof book / sizeof *book);
    show("the book is read", used);
    if (used < 0)
        return 1;
    used = import_model(model, used);
    show("the model is imported", used);
    if (used < 0)
        return 1;
    show("another model, with the word pill", import_model(other, used));
    return 0;
}
