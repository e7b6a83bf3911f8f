/* Makes a certificate from a plan file, writes it to a file, reads it back and checks it:
 *
 *     make library
 *     cc -Iinclude examples/certificate.c target/staticlib/libplq.a -o certificate
 *     ./certificate examples/D.txt D.plq
 */
#include <stdio.h>
#include <stdlib.h>

#include "plq.h"

static uint8_t made[PLQ_LARGEST_CERTIFICATE];

static void stop(const char *path)
{
    perror(path);
    exit(2);
}

/* All bytes of a file, however many: a text that is too long is refused by the call. */
static uint8_t *load(const char *path, size_t *length)
{
    uint8_t *bytes = NULL;
    size_t room = 0, count;
    FILE *file = fopen(path, "rb");
    if (!file)
        stop(path);
    *length = 0;
    do {
        if (*length == room) {
            room = 2 * room + 65536;
            bytes = realloc(bytes, room);
            if (!bytes)
                stop(path);
        }
        count = fread(bytes + *length, 1, room - *length, file);
        *length += count;
    } while (count != 0);
    if (ferror(file))
        stop(path);
    fclose(file);
    return bytes;
}

static void store(const char *path, const uint8_t *bytes, size_t length)
{
    FILE *file = fopen(path, "wb");
    if (!file || fwrite(bytes, 1, length, file) != length || fclose(file) != 0)
        stop(path);
}

static int refused(const char *what, uint64_t result)
{
    printf("%s: refused %u at %llu\n", what, plq_number(result), (unsigned long long)plq_detail(result));
    return 1;
}

int main(int count, char **arguments)
{
    if (count != 3) {
        fprintf(stderr, "usage: %s PLAN CERTIFICATE\n", arguments[0]);
        return 2;
    }
    size_t text_length, length;
    uint8_t *text = load(arguments[1], &text_length);
    uint64_t result = plq_make_certificate(text, text_length, made, sizeof made);
    if (result != 0)
        return refused("making", result);
    store(arguments[2], made, (size_t)plq_certificate_length(made));
    uint8_t *back = load(arguments[2], &length);
    result = plq_check_certificate(text, text_length, back, length);
    free(text);
    free(back);
    if (result != 0)
        return refused("checking", result);
    printf("certificate of %zu bytes written, read back and passed\n", length);
    return 0;
}
