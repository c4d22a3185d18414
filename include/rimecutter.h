/* Rimecutter: the alphabet of a process description, for C programs.
 *
 *     static uint8_t text[RIMECUTTER_TEXT_MAX];
 *     const char *d = "names=1\nname=a\nequations=0\nterms=1\n"
 *                     "term=act a\nroot=0\norder=all\n";
 *     size_t n = rimecutter_alphabet((const uint8_t *)d, strlen(d), text,
 *                                    sizeof text);
 *     fwrite(text, 1, n, stdout);
 *
 * prints answer=ok, rounds=1, labels=1 and label=a:1, on a line each.
 *
 * Link with librimecutter_c.a, which `rt lib` in crates/rimecutter_c writes to
 * out/ there. The archive holds code for x86-64 Linux alone: on another
 * processor it links into programs for x86-64 that run under an emulator
 * (examples/README.md has the lines for arm64).
 *
 * The functions behind the declarations are proved; the declarations
 * themselves are not, and docs/TRUST.md says what else is trusted.
 * docs/FORMAT.md says what a description is and what is printed.
 *
 * Version 1.4 reads descriptions of up to 24 names, where 1.3 read up to 12,
 * and has the conversions of label numbers below. What 1.3 answered has the
 * same text.
 */
#ifndef RIMECUTTER_H
#define RIMECUTTER_H

#include <stddef.h>
#include <stdint.h>

#ifdef __cplusplus
extern "C" {
#endif

#define RIMECUTTER_VERSION "1.4"

/* The longest description that is read; a longer one gets refusal 1. */
#define RIMECUTTER_DESCRIPTION_MAX 8192

/* A text area of this many bytes holds the text of every description. */
#define RIMECUTTER_TEXT_MAX 303104

/* What `reason=` says in the text of a refusal. `line=` counts from 1, and
 * `column=` from 1 in the line's bytes: the byte where the fault begins. Both
 * are 0 where no line is to blame. Numbers 8 and 11 stand in no text: for 8
 * rimecutter_alphabet returns 0, and 11 is returned by a conversion, as 1 may
 * be. The number between 5 and 7 was withdrawn in 1.2 and is not given again;
 * columns came with 1.3, number 11 with 1.4.
 */
enum rimecutter_reason {
    RIMECUTTER_TOO_LONG = 1,     /* over RIMECUTTER_DESCRIPTION_MAX bytes; of
                                    a conversion: the areas do not fit */
    RIMECUTTER_FORM = 2,         /* a line that is missing, not due, or does
                                    not read; or a count out of range */
    RIMECUTTER_NAME = 3,         /* a name that was not given, or may not be */
    RIMECUTTER_RANGE = 4,        /* an operand, equation, body or root that is
                                    not there */
    RIMECUTTER_AMOUNT = 5,       /* a count of 0, a label of over 31 actions,
                                    a list too long or not ascending */
    RIMECUTTER_TOO_LARGE = 7,    /* the sets pass a limit */
    RIMECUTTER_NO_ROOM = 8,      /* the text does not fit the text area */
    RIMECUTTER_UPPER_IN_USE = 11 /* a label that one word does not hold */
};

/* What a conversion returns where it was made. */
#define RIMECUTTER_CONVERTED 0

/* Works out the alphabet of a description and writes, from the start of the
 * text area, the text that the program `alphabet` prints: an answer
 * (`answer=ok`, `rounds=`, `labels=` and a `label=` line for each label) or a
 * refusal (`answer=refused`, `reason=`, `line=` and `column=`). Every line
 * ends with LF; there is no 0 byte at the end.
 *
 * Returns how many bytes were written. Where the whole text does not fit it
 * returns 0 and leaves the area as it was (refusal 8); no text is empty, so 0
 * means nothing else.
 *
 * The description may hold any bytes and may have any length. It is only
 * read. Of the text area nothing past the text is touched. A pointer may be
 * null where its length is 0; otherwise it must point to that many bytes, and
 * the two areas must not overlap.
 *
 * The call always ends. It keeps no state, allocates nothing, calls nothing of
 * the C library that could fail, and may be made from several threads at
 * once. It needs at most 420 KiB of stack, and some 21 KiB for a small
 * description.
 */
size_t rimecutter_alphabet(const uint8_t *description,
                           size_t description_length,
                           uint8_t *text, size_t text_length);

/* Label numbers in one word and in two.
 *
 * A label's number is the sum, over names n, of its count of n times 32 to
 * the power n. It stands in two words, stored one behind the other: the lower
 * word first, with names 0 to 11, five bits each from the lowest on, and then
 * the upper word, with names 12 to 23 in the same way. Before 1.4 there were
 * at most 12 names, and a number stood in the lower word alone.
 *
 * The calls below take stored numbers from one word to two and back. All
 * lengths are in words. Each returns
 *
 *   RIMECUTTER_CONVERTED (0): what was converted stands at the start of the
 *     area, and nothing past it is touched;
 *   RIMECUTTER_TOO_LONG (1): the area has no room for it all, or a label's
 *     words lack the upper one at their end;
 *   RIMECUTTER_UPPER_IN_USE (11): some label has a name from 12 on, which one
 *     word does not hold; by the way back alone, and after 1 was ruled out;
 *
 * and where it does not return 0, the area is as it was. One word to two
 * loses nothing: the lower word is the number, every bit of it, and the upper
 * is 0. Two words to one gives back what was widened.
 *
 * What is converted is only read. A pointer may be null where its length is
 * 0; otherwise it must point to that many words, aligned as uint64_t, and the
 * two areas must not overlap. The calls always end, keep no state, allocate
 * nothing, call nothing of the C library and may be made from several threads
 * at once.
 */

/* The words of `numbers_length` numbers: `words_length` is at least twice
 * that. Returns 0 or 1.
 */
size_t rimecutter_widen(const uint64_t *numbers, size_t numbers_length,
                        uint64_t *words, size_t words_length);

/* The numbers of the labels in `words_length` words, which is even:
 * `numbers_length` is at least half of it. Returns 0, 1 or 11.
 */
size_t rimecutter_narrow(const uint64_t *words, size_t words_length,
                         uint64_t *numbers, size_t numbers_length);

/* The same for one label: `words_length` is at least 2. Returns 0 or 1. */
size_t rimecutter_widen_label(uint64_t number,
                              uint64_t *words, size_t words_length);

/* And back: `number_length` is at least 1. Returns 0, 1 or 11. */
size_t rimecutter_narrow_label(uint64_t lower, uint64_t upper,
                               uint64_t *number, size_t number_length);

#ifdef __cplusplus
}
#endif

#endif
