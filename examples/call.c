/* Prints the alphabet of the description in a file, as a bench program would ask for it:
 *
 *     target/call examples/stripe-15-of-16.txt
 *
 * and takes label numbers that were stored in one word each to two words, and back:
 *
 *     target/call --widen 47 1
 *     target/call --narrow 47 0 1 0
 *
 * How it is compiled and linked stands in examples/README.md.
 */
#include <inttypes.h>
#include <stdio.h>
#include <stdlib.h>
#include <string.h>

#include "rimecutter.h"

enum { NUMBERS_MAX = 64 };

/* One byte more than a description may have, so that one that is too long is told from one that just fits. */
static uint8_t description[RIMECUTTER_DESCRIPTION_MAX + 1];
static uint8_t text[RIMECUTTER_TEXT_MAX];

static int print_alphabet(const char *name)
{
    FILE *file = fopen(name, "rb");
    if (file == NULL) {
        perror(name);
        return 2;
    }
    size_t size = fread(description, 1, sizeof description, file);
    int failed = ferror(file);
    fclose(file);
    if (failed) {
        fprintf(stderr, "%s: cannot be read\n", name);
        return 2;
    }
    size_t length = rimecutter_alphabet(description, size, text, sizeof text);
    return fwrite(text, 1, length, stdout) == length ? 0 : 1;
}

/* Each label on a line of its own: so many words. */
static void print_words(const uint64_t *words, size_t labels, size_t each)
{
    for (size_t i = 0; i < labels * each; i++)
        printf("%" PRIu64 "%c", words[i], (i + 1) % each == 0 ? '\n' : ' ');
}

/* Numbers from one word to two or back; a refusal is told and nothing printed. */
static int convert(int widen, size_t count, char **numbers)
{
    uint64_t given[NUMBERS_MAX], made[2 * NUMBERS_MAX];
    size_t refusal;
    if (count > NUMBERS_MAX) {
        fprintf(stderr, "call: at most %d numbers\n", NUMBERS_MAX);
        return 2;
    }
    for (size_t i = 0; i < count; i++)
        given[i] = strtoull(numbers[i], NULL, 10);
    if (widen)
        refusal = rimecutter_widen(given, count, made, 2 * NUMBERS_MAX);
    else
        refusal = rimecutter_narrow(given, count, made, 2 * NUMBERS_MAX);
    if (refusal != RIMECUTTER_CONVERTED) {
        fprintf(stderr, "call: refusal %zu\n", refusal);
        return 1;
    }
    print_words(made, widen ? count : count / 2, widen ? 2 : 1);
    return 0;
}

int main(int count, char **words)
{
    if (count > 1 && strcmp(words[1], "--widen") == 0)
        return convert(1, (size_t)count - 2, words + 2);
    if (count > 1 && strcmp(words[1], "--narrow") == 0)
        return convert(0, (size_t)count - 2, words + 2);
    if (count == 2)
        return print_alphabet(words[1]);
    fprintf(stderr, "usage: call DESCRIPTION, call --widen NUMBER.., call --narrow WORD..\n");
    return 2;
}
