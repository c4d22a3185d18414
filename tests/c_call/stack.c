/* How much stack the call uses, told by a thread whose stack was painted: what the paint is gone from was used. Some of that is the
 * thread's own. It is held to what include/rimecutter.h says. Ends with status 1 and the first that is not so. */
#define _POSIX_C_SOURCE 200112L
#include <pthread.h>
#include <stdio.h>
#include <stdlib.h>
#include <string.h>

#include "rimecutter.h"

#define CHECK(condition)                                                          \
    do {                                                                          \
        if (!(condition)) {                                                       \
            fprintf(stderr, "stack.c:%d: not so: %s\n", __LINE__, #condition);    \
            exit(1);                                                              \
        }                                                                         \
    } while (0)

enum { KIB = 1024, STACK = 1024 * KIB, OF_THE_THREAD = 12 * KIB, PAINT = 0xA5 };

/* The listing of README.md; the same with sums that take more labels than small areas have room for; and rules that overlap, on a
 * label of nine actions, for which states are remembered. */
static const char small[] =
    "names=2\nname=done\nname=close\nequations=1\nterms=5\nterm=act done\nterm=ref 0\nterm=seq 0 1\nterm=merge 1 1\n"
    "term=comm 3 done:2>close\nequation=2\nroot=4\norder=all\n";
static const char large[] =
    "names=2\nname=done\nname=close\nequations=1\nterms=7\nterm=act done\nterm=act close\nterm=merge 0 1\nterm=merge 2 2\n"
    "term=merge 3 3\nterm=merge 4 4\nterm=merge 5 4\nequation=6\nroot=6\norder=all\n";
static const char remembering[] =
    "names=3\nname=a\nname=b\nname=c\nequations=1\nterms=8\nterm=act a\nterm=act b\nterm=act c\nterm=sync 0 1\nterm=sync 3 2\n"
    "term=sync 4 4\nterm=sync 5 4\nterm=comm 6 a:1.b:1>c,a:1.c:1>b,b:1.c:1>a\nequation=7\nroot=7\norder=all\n";

static const char *description;
static uint8_t text[RIMECUTTER_TEXT_MAX];

static void *call(void *length)
{
    *(size_t *)length = rimecutter_alphabet((const uint8_t *)description, strlen(description), text, sizeof text);
    return NULL;
}

static size_t used(const char *given)
{
    void *stack;
    uint8_t *painted;
    pthread_attr_t attributes;
    pthread_t thread;
    size_t length = 0, left = 0;
    description = given;
    CHECK(posix_memalign(&stack, 4 * KIB, STACK) == 0);
    memset(stack, PAINT, STACK);
    CHECK(pthread_attr_init(&attributes) == 0);
    CHECK(pthread_attr_setstack(&attributes, stack, STACK) == 0);
    CHECK(pthread_create(&thread, &attributes, call, &length) == 0);
    CHECK(pthread_join(thread, NULL) == 0);
    CHECK(length > 0 && memcmp(text, "answer=ok\n", 10) == 0);
    for (painted = stack; left < STACK && painted[left] == PAINT; left++)
        continue;
    pthread_attr_destroy(&attributes);
    free(stack);
    return STACK - left;
}

int main(void)
{
    CHECK(used(small) <= 32 * KIB + OF_THE_THREAD);
    CHECK(used(large) <= 420 * KIB + OF_THE_THREAD);
    CHECK(used(remembering) <= 420 * KIB + OF_THE_THREAD);
    puts("the C call uses no more stack than its header says");
    return 0;
}
