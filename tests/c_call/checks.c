/* What include/rimecutter.h promises of the areas, tried from C: guard bytes stand on both sides of each area, and everything past
 * the text, or past what was converted, must be as it was. Ends with status 1 and the first line of this file that does not hold. */
#include <stdio.h>
#include <stdlib.h>
#include <string.h>

#include "rimecutter.h"

#define CHECK(condition)                                                          \
    do {                                                                          \
        if (!(condition)) {                                                       \
            fprintf(stderr, "checks.c:%d: not so: %s\n", __LINE__, #condition);   \
            exit(1);                                                              \
        }                                                                         \
    } while (0)

enum { GUARD = 256, FILLER = 0xA5 };

/* The listing of README.md. */
static const char listing[] =
    "names=2\nname=done\nname=close\nequations=1\nterms=5\nterm=act done\nterm=ref 0\nterm=seq 0 1\nterm=merge 1 1\n"
    "term=comm 3 done:2>close\nequation=2\nroot=4\norder=all\n";
static const char listed[] = "answer=ok\nrounds=2\nlabels=3\nlabel=done:1\nlabel=done:2\nlabel=close:1\n";
static const char no_line[] = "answer=refused\nreason=2\nline=1\ncolumn=1\n";
static const char too_long[] = "answer=refused\nreason=1\nline=0\ncolumn=0\n";

struct area {
    uint8_t *whole;
    size_t size;
};

static struct area area_of(size_t size)
{
    struct area area = {malloc(size + 2 * GUARD), size};
    CHECK(area.whole != NULL);
    memset(area.whole, FILLER, size + 2 * GUARD);
    return area;
}

static uint8_t *start_of(struct area area)
{
    return area.whole + GUARD;
}

/* Everything before the area and from its byte `from` on is as it was. */
static void check_untouched(struct area area, size_t from)
{
    for (size_t i = 0; i < GUARD; i++)
        CHECK(area.whole[i] == FILLER);
    for (size_t i = GUARD + from; i < area.size + 2 * GUARD; i++)
        CHECK(area.whole[i] == FILLER);
}

/* A description lent with guards of its own must come back unchanged; a text area of `room` bytes gets the text, whole or not at
 * all. */
static void check_call(const uint8_t *bytes, size_t size, const char *due, size_t room)
{
    struct area description = area_of(size), text = area_of(room);
    size_t length = strlen(due) <= room ? strlen(due) : 0;
    memcpy(start_of(description), bytes, size);
    CHECK(rimecutter_alphabet(start_of(description), size, start_of(text), room) == length);
    CHECK(memcmp(start_of(text), due, length) == 0);
    check_untouched(text, length);
    CHECK(memcmp(start_of(description), bytes, size) == 0);
    check_untouched(description, size);
    free(description.whole);
    free(text.whole);
}

static void check_rooms(const void *bytes, size_t size, const char *due)
{
    const size_t rooms[] = {strlen(due), strlen(due) - 1, 0, 1, strlen(due) + 1, RIMECUTTER_TEXT_MAX};
    for (size_t i = 0; i < sizeof rooms / sizeof rooms[0]; i++)
        check_call(bytes, size, due, rooms[i]);
}

static void check_nulls(void)
{
    struct area text = area_of(RIMECUTTER_TEXT_MAX);
    CHECK(rimecutter_alphabet(NULL, 0, start_of(text), text.size) == strlen(no_line));
    CHECK(memcmp(start_of(text), no_line, strlen(no_line)) == 0);
    check_untouched(text, strlen(no_line));
    CHECK(rimecutter_alphabet((const uint8_t *)listing, strlen(listing), NULL, 0) == 0);
    CHECK(rimecutter_alphabet(NULL, 0, NULL, 0) == 0);
    free(text.whole);
}

static void check_oversized(void)
{
    const size_t sizes[] = {RIMECUTTER_DESCRIPTION_MAX + 1, 65536, 1 << 20};
    for (size_t i = 0; i < sizeof sizes / sizeof sizes[0]; i++) {
        uint8_t *bytes = malloc(sizes[i]);
        CHECK(bytes != NULL);
        memset(bytes, '\n', sizes[i]);
        memcpy(bytes, listing, strlen(listing));
        check_rooms(bytes, sizes[i], too_long);
        free(bytes);
    }
}

/* Calls in turn do not know of each other: the first area keeps its text while a second call is made, and a third is like the first. */
static void check_turns(void)
{
    struct area first = area_of(sizeof listed), second = area_of(sizeof no_line);
    size_t length = rimecutter_alphabet((const uint8_t *)listing, strlen(listing), start_of(first), first.size);
    CHECK(length == strlen(listed));
    CHECK(rimecutter_alphabet(NULL, 0, start_of(second), second.size) == strlen(no_line));
    CHECK(memcmp(start_of(first), listed, length) == 0);
    check_untouched(first, length);
    CHECK(rimecutter_alphabet((const uint8_t *)listing, strlen(listing), start_of(first), first.size) == length);
    CHECK(memcmp(start_of(first), listed, length) == 0);
    free(first.whole);
    free(second.whole);
}

/* The conversions. An area of words, between the guards too, in which so many words are due and the others stay. */
static void check_words(struct area area, const uint64_t *due, size_t count)
{
    CHECK(count == 0 || memcmp(start_of(area), due, count * sizeof *due) == 0);
    check_untouched(area, count * sizeof *due);
}

static struct area words_of(const uint64_t *words, size_t count)
{
    struct area area = area_of(count * sizeof *words);
    if (count > 0)
        memcpy(start_of(area), words, count * sizeof *words);
    return area;
}

static uint64_t *words_in(struct area area)
{
    return (uint64_t *)(void *)start_of(area);
}

/* A list converted one way, into an area with room for so many words: what is answered, what stands there then, and that what was
 * read is as it was. */
static void check_conversion(int widen, const uint64_t *given, size_t count, size_t room, size_t answer, const uint64_t *due, size_t made)
{
    struct area from = words_of(given, count), to = area_of(room * sizeof *given);
    size_t answered = widen ? rimecutter_widen(words_in(from), count, words_in(to), room)
                            : rimecutter_narrow(words_in(from), count, words_in(to), room);
    CHECK(answered == answer);
    check_words(to, due, answer == RIMECUTTER_CONVERTED ? made : 0);
    check_words(from, given, count);
    free(from.whole);
    free(to.whole);
}

/* Numbers and their words, there and back, into areas that just fit, that have a word more and that lack one; and a word that has
 * none beside it. */
static void check_there_and_back(const uint64_t *numbers, size_t count, const uint64_t *words)
{
    check_conversion(1, numbers, count, 2 * count, RIMECUTTER_CONVERTED, words, 2 * count);
    check_conversion(1, numbers, count, 2 * count + 1, RIMECUTTER_CONVERTED, words, 2 * count);
    check_conversion(0, words, 2 * count, count, RIMECUTTER_CONVERTED, numbers, count);
    check_conversion(0, words, 2 * count, count + 1, RIMECUTTER_CONVERTED, numbers, count);
    if (count == 0)
        return;
    check_conversion(1, numbers, count, 2 * count - 1, RIMECUTTER_TOO_LONG, NULL, 0);
    check_conversion(1, numbers, count, 0, RIMECUTTER_TOO_LONG, NULL, 0);
    check_conversion(0, words, 2 * count, count - 1, RIMECUTTER_TOO_LONG, NULL, 0);
    check_conversion(0, words, 2 * count - 1, count, RIMECUTTER_TOO_LONG, NULL, 0);
}

enum { LABELS = 5 };

/* Any bits in a lower word are kept: those past the names, too. */
static const uint64_t stored[LABELS] = {47, 0, UINT64_MAX, 0x8000000000000001, 0x0fffffffffffffff};
static const uint64_t widened[2 * LABELS] = {47, 0, 0, 0, UINT64_MAX, 0, 0x8000000000000001, 0, 0x0fffffffffffffff, 0};

/* With an upper word in use in one label, whichever it is and whatever bit is set, nothing is given. A short area is told first. */
static void check_upper_in_use(size_t label)
{
    uint64_t words[2 * LABELS];
    for (int bit = 0; bit < 64; bit++) {
        memcpy(words, widened, sizeof words);
        words[2 * label + 1] = (uint64_t)1 << bit;
        check_conversion(0, words, 2 * LABELS, LABELS, RIMECUTTER_UPPER_IN_USE, NULL, 0);
        check_conversion(0, words, 2 * LABELS, LABELS - 1, RIMECUTTER_TOO_LONG, NULL, 0);
        check_conversion(0, words, 2 * LABELS - 1, LABELS, RIMECUTTER_TOO_LONG, NULL, 0);
    }
}

/* One label: each bit of its number goes to two words and back. */
static void check_label(uint64_t number)
{
    const uint64_t due[2] = {number, 0};
    struct area words = area_of(3 * sizeof number), back = area_of(2 * sizeof number);
    CHECK(rimecutter_widen_label(number, words_in(words), 1) == RIMECUTTER_TOO_LONG);
    check_words(words, NULL, 0);
    CHECK(rimecutter_widen_label(number, words_in(words), 3) == RIMECUTTER_CONVERTED);
    check_words(words, due, 2);
    CHECK(rimecutter_narrow_label(number, 0, words_in(back), 0) == RIMECUTTER_TOO_LONG);
    CHECK(rimecutter_narrow_label(number, number | 1, words_in(back), 2) == RIMECUTTER_UPPER_IN_USE);
    CHECK(rimecutter_narrow_label(0, (uint64_t)1 << 63, words_in(back), 2) == RIMECUTTER_UPPER_IN_USE);
    check_words(back, NULL, 0);
    CHECK(rimecutter_narrow_label(number, 0, words_in(back), 2) == RIMECUTTER_CONVERTED);
    check_words(back, due, 1);
    free(words.whole);
    free(back.whole);
}

static void check_conversions(void)
{
    for (size_t count = 0; count <= LABELS; count++)
        check_there_and_back(stored, count, widened);
    for (size_t label = 0; label < LABELS; label++)
        check_upper_in_use(label);
    for (int bit = 0; bit < 64; bit++)
        check_label((uint64_t)1 << bit);
    check_label(0);
    check_label(UINT64_MAX);
    CHECK(rimecutter_widen(NULL, 0, NULL, 0) == RIMECUTTER_CONVERTED);
    CHECK(rimecutter_narrow(NULL, 0, NULL, 0) == RIMECUTTER_CONVERTED);
    CHECK(rimecutter_widen(stored, 1, NULL, 0) == RIMECUTTER_TOO_LONG);
    CHECK(rimecutter_narrow(widened, 2, NULL, 0) == RIMECUTTER_TOO_LONG);
    CHECK(rimecutter_widen_label(47, NULL, 0) == RIMECUTTER_TOO_LONG);
    CHECK(rimecutter_narrow_label(47, 0, NULL, 0) == RIMECUTTER_TOO_LONG);
}

int main(void)
{
    check_rooms(listing, strlen(listing), listed);
    check_rooms("", 0, no_line);
    check_nulls();
    check_oversized();
    check_turns();
    check_conversions();
    puts("the C calls are as their header says");
    return 0;
}
