/* Putting a dispenser direction into the carer's language: the calls for C.
 *
 * A list is lent as a pointer and its length. Every call may be handed any list and any number: it answers, or refuses with the number of the
 * question whose answer was no (docs/REFUSALS.md). No call keeps a pointer, allocates, or touches a list beyond its length.
 * A list that a call may write (book or direction of a reading, the book of an addition, a removal or an import, steps, words, store, report, answers, sheet) must not overlap another list of the same call;
 * lists that are only read may. A pointer is aligned for its type, and not null even where the length is 0.
 * A decode takes 760,000 bytes of stack, a round, also with its sheet, 757,000, a scoring 494,000, reading, checking or revising a book and the two target calls 477,000, an import 1,266,000,
 * reading a direction fewer than 1,000.
 *
 * A loaded book is a list of signed 32-bit numbers: those of its lines, one line after the other, each with its kind first (B 1, P 2, T 3, U 4, D 5), and
 * behind d, eta and u of the B line, which is the first, how many P lines and how many T lines there are. Calls after phrase_read_book are lent just the
 * numbers in use: those that it wrote, or as many as the last addition, removal or import returned. No call keeps anything of a book from one call to the next.
 * A step is three unsigned 16-bit numbers: first, last, entry. Positions and entries count from 1. Numbers left over behind the last whole step
 * are no place. A store is a list of signed 64-bit numbers, eight to a state.
 * A report list gets as many of its values as it has places, and nothing on a refusal.
 *
 * The score of a target word is that of the triple it ends (a T line) or, where that is not listed, backs off to the pair of its last two words (a D
 * line), to the word alone (a U line), or to u. A report says how many target words of the derivation each of these four supplied, in this order; a
 * weight that is added on the way supplies nothing. The four add up to the number of target words. */
#ifndef PHRASE_H
#define PHRASE_H

#include <stddef.h>
#include <stdint.h>

#ifdef __cplusplus
extern "C" {
#endif

/* Reads a book's text. Returns how many numbers it wrote to the front of `book`, or minus the refusal, 1 to 7 or 20.
 * Places of `book` behind those numbers are as before; after a refusal all of it is. */
int64_t phrase_read_book(const uint8_t *text, size_t text_len, int32_t *book, size_t book_len);

/* Reads a direction's text. Returns how many words it wrote to the front of `direction`, or minus the refusal, 8, 9, 10 or 7.
 * Places of `direction` behind those words are as before; after a refusal all of it is. */
int64_t phrase_read_direction(const uint8_t *text, size_t text_len, uint16_t *direction, size_t direction_len);

/* Adds a phrase, a P line given as loaded numbers (2, a, b, a source words, b target words, the score), after the last line of the book whose numbers in
 * use are the first `used` of the list. Returns how many numbers are then in use, or minus the refusal: 7 where `used` is more than the list holds, before
 * all else; 2 to 6, 21 or 20 of the book; then of the line 2, 4, 5 (4,096 P lines are there already) or 7 (no room for it).
 * The new entry is the last one. Places of `book` behind the line are as before; after a refusal all of it is. */
int64_t phrase_add_entry(int32_t *book, size_t book_len, size_t used, const int32_t *line, size_t line_len);

/* Removes entry `entry`, counted from 1; the entries behind it are then numbered one less. Returns how many numbers are then in use, or minus the refusal: 7
 * where `used` is more than the list holds, before all else; 2 to 6, 21 or 20 of the book; 22 where there is no such entry.
 * The places that are freed, at the end of those that were in use, are zero, and those behind them as before; after a refusal all of `book` is. */
int64_t phrase_remove_entry(int32_t *book, size_t book_len, size_t used, size_t entry);

/* Imports a language model, an ARPA text of order 1 to 3, to the book whose numbers in use are the first `used` of the list: its n-grams become U, D and T
 * lines after the last line, in the text's order, and the value of <unk> alone becomes u (the book's own stays where the text has none). N-grams that
 * hold </s>, and those of two or three words that hold <unk> or end in <s>, are passed over. Values become thousandths, the nearest, halves away from 0.
 * `spelling` is the word list: its k-th line spells word k, for k to 65,534; of equal lines the first counts. <s> is word 0. A line of either text ends in
 * byte 10 or at the text's end. Those of the word list are taken whole; those of the ARPA text are fields between spaces and tabs, and blank lines, what
 * stands before the first line \data\ and what stands behind \end\ are passed over. docs/ARPA.md has the form.
 * Returns how many numbers are then in use, or minus the refusal: 7 where `used` is more than the list holds, before all else; 23 (no such text), 24 (a word
 * that the word list lacks) or 25 (a value beyond a score's range); 2 to 6, 21 or 20 of the book; 5, 6 or 20 of the longer book; 7 (no room for its lines).
 * Entries keep their numbers. Places of `book` behind the new lines are as before; after a refusal all of it is. */
int64_t phrase_import_arpa(const uint8_t *arpa, size_t arpa_len, const uint8_t *spelling, size_t spelling_len, int32_t *book, size_t book_len, size_t used);

/* Asks questions 2 to 6, 21 and 20 of a loaded book. Returns 0, or the refusal. Changes nothing. */
int32_t phrase_check_book(const int32_t *book, size_t book_len);

/* Where the target words of an entry stand in a loaded book, and how many they are. For a number that is no entry, and for a list that 2 to 6,
 * 21 or 20 refuse: the list's length, and 0. Change nothing. */
int64_t phrase_target_start(const int32_t *book, size_t book_len, size_t entry);
int64_t phrase_target_count(const int32_t *book, size_t book_len, size_t entry);

/* Scores a proposed list of steps, of any number. Returns 0, or the refusal: 2 to 6, 21, 20, 9, 10, 16 to 19.
 * report, five values: the score, and how many target words were supplied by triples, pairs, words and u. Changes nothing else. */
int32_t phrase_score(const int32_t *book, size_t book_len, const uint16_t *direction, size_t direction_len,
                     const uint16_t *steps, size_t steps_len, int64_t *report, size_t report_len);

/* Finds the best derivation. `width` is -1 (pruning off) or the beam's width. Returns 0, or the refusal: 2 to 6, 21, 20, 9 to 15.
 * On success the steps stand at the front of `steps`, their target words at the front of `words`, and the places behind them are as before;
 * report, eight values: the score, the number of steps, of words, and of states entered, and how many target words were supplied by triples, pairs,
 * words and u: those that phrase_score reports of the same steps.
 * Of derivations with equal scores the first in order wins, compared step by step by first, then last, then entry: the book, the direction and the
 * width alone decide the steps and the words.
 * After a refusal `steps` and `words` are as before. After 13, 14, 15 and after success every number of `store` is 0; after another refusal it is as
 * before. `steps` needs 3 numbers, and `words` 8, for each word of the direction. */
int32_t phrase_decode(const int32_t *book, size_t book_len, const uint16_t *direction, size_t direction_len, int64_t width,
                      uint16_t *steps, size_t steps_len, uint16_t *words, size_t words_len,
                      int64_t *store, size_t store_len, int64_t *report, size_t report_len);

/* Decodes a round's directions, 1 to 64, with one book, width and store. They follow one another in `directions`, and the k-th of `ends` says where direction k
 * ends: the first one begins at 0, and each other one where the one before it ends; words behind the last end are not looked at.
 * Returns 0, or the refusal of the whole round: 2 to 6, 21 or 20 of the book; 26 where there are not 1 to 64 ends, an end is not above the one before (0 for
 * the first), or an end lies past the list; 12 where `steps` has fewer than 96 numbers, `words` fewer than 256 or `answers` fewer than 9 for each direction.
 * A refused round changes no list.
 * Counted from 0, direction k has the 96 numbers of `steps` from 96 * k on (32 steps), the 256 of `words` from 256 * k on, and the 9 of `answers` from 9 * k on:
 * its answer, 0 or one of 9, 10, 11, 13, 14 and 15, and then the eight values that phrase_decode reports, or eight zeros after a refusal. All of them are what
 * phrase_decode leaves of that direction on those places with the same store and width, and `store` is as those decodes, one after the other, leave it: as
 * before where every direction was refused with 9, 10 or 11, and else every number is 0. Places behind those of the last direction are as before. */
int32_t phrase_decode_round(const int32_t *book, size_t book_len, const uint16_t *directions, size_t directions_len,
                            const size_t *ends, size_t ends_len, int64_t width,
                            uint16_t *steps, size_t steps_len, uint16_t *words, size_t words_len,
                            int64_t *store, size_t store_len, int64_t *answers, size_t answers_len);

/* Decodes a round as phrase_decode_round does, with the same lists, and puts the sheet of its answers at the front of `sheet`: text lines of a letter and decimal
 * numbers, each number after a comma, each line ended by byte 10.
 *   N,number,answer,score,words   a line for each direction, in their order: its number, from 1, its answer, 0 or its refusal, its score, and how many target
 *                                 words it has; score and words are 0 after a refusal
 *   E,answer,count                a line for each answer that occurred, rising: how many N lines have it
 *   Z,directions,words,score      how many N lines there are, and the sums of their words and of their scores
 * Returns how many bytes the sheet is, at most 1,430, or minus the refusal: those of phrase_decode_round, then 7 where `sheet` has fewer than 2,048 bytes. Bytes
 * behind the sheet are as before. A refusal changes no list. */
int64_t phrase_round_sheet(const int32_t *book, size_t book_len, const uint16_t *directions, size_t directions_len,
                           const size_t *ends, size_t ends_len, int64_t width,
                           uint16_t *steps, size_t steps_len, uint16_t *words, size_t words_len,
                           int64_t *store, size_t store_len, int64_t *answers, size_t answers_len,
                           uint8_t *sheet, size_t sheet_len);

#ifdef __cplusplus
}
#endif

#endif
