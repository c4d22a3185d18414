/* The C call behind the batch interface of the comparison (tests/README.md): a record is a decimal length, LF and that many bytes;
 * for each the length of its text, LF and the text are printed. */
#include <stdio.h>
#include <stdlib.h>
#include <string.h>

#include "rimecutter.h"

static uint8_t text[RIMECUTTER_TEXT_MAX];

static int fail(const char *what)
{
    fprintf(stderr, "batch: %s\n", what);
    return 1;
}

/* One record: 1 if it was answered, 0 at the end of the input, -1 if it is broken. */
static int answer_next(void)
{
    size_t size;
    int fields = scanf("%zu", &size);
    if (fields == EOF)
        return 0;
    if (fields != 1 || getchar() != '\n')
        return -1;
    uint8_t *record = malloc(size + 1);
    if (record == NULL || fread(record, 1, size, stdin) != size)
        return -1;
    size_t length = rimecutter_alphabet(record, size, text, sizeof text);
    free(record);
    printf("%zu\n", length);
    return fwrite(text, 1, length, stdout) == length ? 1 : -1;
}

int main(int count, char **words)
{
    int answered;
    if (count != 2 || strcmp(words[1], "--batch") != 0)
        return fail("usage: batch --batch");
    do
        answered = answer_next();
    while (answered > 0);
    return answered < 0 ? fail("a record is not whole, or a text cannot be written") : 0;
}
