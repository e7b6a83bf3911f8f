/* Measures the stack that each call needs, on the plans that are named:
 *
 *     cc -pthread -Iinclude tests/command/stack.c target/staticlib/libplq.a -o stack
 *     ./stack PLAN...
 *
 * It prints PLQ_STACK, and for each call the most bytes that it took, what the functions that it calls took among them. A call runs in a thread whose
 * stack was painted before; afterwards the lowest byte that has another colour tells how deep it went. */
#define _XOPEN_SOURCE 700

#include <pthread.h>
#include <stdio.h>
#include <stdlib.h>
#include <string.h>

#include "plq.h"

enum { ROOM = 16 << 20, PAINT = 0xa7, LARGEST_TEXT = 1 << 20, SIZES = 2048 };

static uint8_t text[LARGEST_TEXT], made[PLQ_LARGEST_CERTIFICATE], report[PLQ_LARGEST_REPORT];
static size_t text_length, made_length;
static uint32_t y[SIZES], x[SIZES], z[SIZES];
static uint8_t *stack, *begin;

static void fail(const char *what)
{
    perror(what);
    exit(2);
}

/* The sizes on a text's second line; a text that has none is refused before they matter. */
static void sizes(size_t *n, size_t *m)
{
    const char *line = strchr((const char *)text, '\n');
    if (!line || sscanf(line, "%zu %zu", n, m) != 2 || *n > SIZES || *m > SIZES)
        *n = *m = 0;
}

static void make(void)
{
    made_length = plq_make_certificate(text, text_length, made, sizeof made) == 0 ? (size_t)plq_certificate_length(made) : 0;
}

static void check(void)
{
    plq_check_certificate(text, text_length, made, made_length);
}

static void report_on(void)
{
    plq_report(text, text_length, report, sizeof report);
}

static void answer_from(size_t certificate_length)
{
    uint8_t verdict;
    size_t n = 0, m = 0;
    sizes(&n, &m);
    y[0] = 1;
    plq_answer(text, text_length, made, certificate_length, y, m, x, n, z, m, &verdict);
}

static void answer(void)
{
    answer_from(0);
}

static void answer_from_certificate(void)
{
    answer_from(made_length);
}

static const struct call {
    const char *name;
    void (*run)(void);
} calls[] = {{"make", make}, {"check", check}, {"report", report_on}, {"answer", answer}, {"answer from a certificate", answer_from_certificate}};

enum { CALLS = sizeof calls / sizeof *calls };

/* What lies above `begin` is the thread's own; what lies below it, the call's. */
static void *in_thread(void *call)
{
    uint8_t here = 0;
    begin = &here;
    ((const struct call *)call)->run();
    return NULL;
}

static size_t depth_of(const struct call *call)
{
    pthread_attr_t attributes;
    pthread_t thread;
    memset(stack, PAINT, ROOM);
    if (pthread_attr_init(&attributes) || pthread_attr_setstack(&attributes, stack, ROOM) ||
        pthread_create(&thread, &attributes, in_thread, (void *)call) || pthread_join(thread, NULL))
        fail("thread");
    pthread_attr_destroy(&attributes);
    size_t untouched = 0;
    while (stack[untouched] == PAINT)
        untouched++;
    return (size_t)(begin - (stack + untouched));
}

static void load(const char *path)
{
    FILE *file = fopen(path, "rb");
    if (!file)
        fail(path);
    text_length = fread(text, 1, sizeof text - 1, file);
    text[text_length] = 0;
    if (ferror(file) || fclose(file) != 0)
        fail(path);
}

int main(int count, char **arguments)
{
    size_t deepest[CALLS] = {0};
    void *room;
    if (posix_memalign(&room, 4096, ROOM) != 0)
        fail("memory");
    stack = room;
    for (int i = 1; i < count; i++) {
        load(arguments[i]);
        for (size_t k = 0; k < CALLS; k++) {
            size_t depth = depth_of(&calls[k]);
            deepest[k] = depth > deepest[k] ? depth : deepest[k];
        }
    }
    printf("PLQ_STACK %d\n", PLQ_STACK);
    for (size_t k = 0; k < CALLS; k++)
        printf("%s %zu\n", calls[k].name, deepest[k]);
    free(stack);
    return 0;
}
