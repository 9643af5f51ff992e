/* Serves calls of the functions for C: each request on standard input is answered on standard output, until the input ends.
   A request: a byte with the length of a function's name, the name, then its arguments in order. A buffer is its length in
   elements (four bytes, low byte first) and its elements, a number is four bytes; words have their low byte first.
   An answer: the number that was returned, then every buffer as it is after the call, in order.
   calls.h has the functions; c/exports.py makes it. */
#include "hitchbriar.h"

#include <stdio.h>
#include <stdlib.h>
#include <string.h>

enum { MOST_ARGUMENTS = 12, MOST_NAME = 255 };

/* A buffer, or a number. */
struct argument {
    uint8_t *bytes;
    size_t length;
    uint32_t number;
};

/* A function: how many bytes an element of each argument has, 0 for a number. */
struct call {
    const char *name;
    int arguments;
    size_t element[MOST_ARGUMENTS];
    uint8_t (*made)(const struct argument *argument);
};

#include "calls.h"

static struct argument argument[MOST_ARGUMENTS];

static void take(void *to, size_t size)
{
    if (fread(to, 1, size, stdin) != size)
        exit(1);
}

static uint32_t number(void)
{
    uint8_t n[4];
    take(n, sizeof n);
    return n[0] | (uint32_t)n[1] << 8 | (uint32_t)n[2] << 16 | (uint32_t)n[3] << 24;
}

/* Each buffer is allotted at its own size, so that a sanitizer sees an access past its end; one of no length is a null pointer. */
static void take_argument(struct argument *one, size_t element)
{
    one->number = number();
    if (element == 0)
        return;
    one->length = one->number;
    free(one->bytes);
    one->bytes = NULL;
    if (one->length == 0)
        return;
    one->bytes = malloc(one->length * element);
    if (one->bytes == NULL)
        exit(1);
    take(one->bytes, one->length * element);
}

static const struct call *named(const char *name)
{
    for (size_t at = 0; at < sizeof calls / sizeof *calls; at++)
        if (strcmp(calls[at].name, name) == 0)
            return &calls[at];
    fprintf(stderr, "serve: no function %s\n", name);
    exit(1);
}

/* The function of a request, by its name. */
static const struct call *take_name(uint8_t length)
{
    char name[MOST_NAME + 1] = { 0 };
    take(name, length);
    return named(name);
}

static void take_arguments(const struct call *call)
{
    for (int at = 0; at < call->arguments; at++)
        take_argument(&argument[at], call->element[at]);
}

static void give_buffers(const struct call *call)
{
    for (int at = 0; at < call->arguments; at++)
        if (call->element[at] != 0 && argument[at].length != 0)
            fwrite(argument[at].bytes, call->element[at], argument[at].length, stdout);
}

int main(void)
{
    uint8_t length;
    while (fread(&length, 1, 1, stdin) == 1) {
        const struct call *call = take_name(length);
        take_arguments(call);
        uint8_t answer = call->made(argument);
        fwrite(&answer, 1, 1, stdout);
        give_buffers(call);
        fflush(stdout);
    }
    return 0;
}
