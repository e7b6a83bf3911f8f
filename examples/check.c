/* Checks a certificate file against a plan file:
 *
 *     make library
 *     cc -Iinclude examples/check.c target/staticlib/libplq.a -o check
 *     ./check examples/D.txt examples/D.plq
 */
#include <stdio.h>
#include <stdlib.h>

#include "plq.h"

static void stop(const char *path)
{
    perror(path);
    exit(2);
}

/* All bytes of a file, however many: a certificate that somebody else made may have 33,603,621. */
static uint8_t *load(const char *path, size_t *length)
{
    uint8_t *bytes = NULL;
    size_t room = 0, count;
    FILE *file = fopen(path, "rb");
    if (!file)
        stop(path);
    *length = 0;
    do {
        if (*length == room) {
            room = 2 * room + 65536;
            bytes = realloc(bytes, room);
            if (!bytes)
                stop(path);
        }
        count = fread(bytes + *length, 1, room - *length, file);
        *length += count;
    } while (count != 0);
    if (ferror(file))
        stop(path);
    fclose(file);
    return bytes;
}

int main(int count, char **arguments)
{
    if (count != 3) {
        fprintf(stderr, "usage: %s PLAN CERTIFICATE\n", arguments[0]);
        return 2;
    }
    size_t text_length, certificate_length;
    uint8_t *text = load(arguments[1], &text_length);
    uint8_t *certificate = load(arguments[2], &certificate_length);
    uint64_t result = plq_check_certificate(text, text_length, certificate, certificate_length);
    free(text);
    free(certificate);
    if (result != 0) {
        printf("refused %u at %llu\n", plq_number(result), (unsigned long long)plq_detail(result));
        return 1;
    }
    printf("passed: the rank and every answer from this certificate are right\n");
    return 0;
}
