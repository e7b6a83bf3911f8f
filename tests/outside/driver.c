/* Runs many cases of the C calls in one process.

   Standard input, any number of requests: one byte for the call, the length of
   each of its parts as a 32-bit little-endian number, and then the parts.

     'M'  plq_make_certificate    text, buffer
     'C'  plq_check_certificate   text, certificate
     'R'  plq_report              text, buffer
     'A'  plq_answer              text, certificate, y, x, z, verdict

   y, x and z are cells of 32 bits, and so counted; the others are bytes, the
   verdict one. What stands in a part that is lent for writing is what it holds
   before the call.

   Standard output, for each request: the number returned (64 bits,
   little-endian), one byte that is 1 if the call changed nothing that it was
   not lent, and the parts that it was lent for writing, as it left them.

   Where a part is empty, the call is made once more, with NULL for it. If
   anything is then otherwise, the one byte is 2. */

#include <stdint.h>
#include <stdio.h>
#include <stdlib.h>
#include <string.h>

#include "plq.h"

enum { GUARD = 16, GUARD_BYTE = 0x5a, MOST_PARTS = 6 };
enum { CHANGED = 0, KEPT = 1, OTHER_WITH_NULL = 2 };
enum { NUMBER = 8, OPENING = NUMBER + 1 };

/* Cells between two guards, at an address that suits no wider type. */
struct part {
    size_t size;      /* of a cell, in bytes */
    size_t length;    /* in cells */
    int is_lent;      /* for the call to write to */
    uint8_t *before;  /* what the cells hold before the call */
    uint8_t *block;
    uint8_t *cells;
};

struct request {
    int call;
    int count;
    struct part parts[MOST_PARTS];
};

static _Noreturn void fail(const char *message) {
    fprintf(stderr, "driver: %s\n", message);
    exit(2);
}

static void read_exactly(void *bytes, size_t length) {
    if (fread(bytes, 1, length, stdin) != length) fail("request cut short");
}

static void write_exactly(const void *bytes, size_t length) {
    if (fwrite(bytes, 1, length, stdout) != length) fail("cannot write");
}

static uint32_t read_number(void) {
    uint8_t b[4];
    read_exactly(b, sizeof b);
    return b[0] | (uint32_t)b[1] << 8 | (uint32_t)b[2] << 16 | (uint32_t)b[3] << 24;
}

static uint8_t *memory(size_t length) {
    uint8_t *bytes = malloc(length + 1);
    if (!bytes) fail("no memory");
    return bytes;
}

/* A letter for each part: bytes or cells, in capitals where they are lent for writing. */
static const char *kinds(int call) {
    switch (call) {
    case 'M': return "bB";
    case 'C': return "bb";
    case 'R': return "bB";
    case 'A': return "bbcCCB";
    default: fail("unknown call");
    }
}

static size_t guard_bytes(struct part part) { return GUARD + part.size; }
static size_t cell_bytes(struct part part) { return part.size * part.length; }
static size_t block_bytes(struct part part) { return cell_bytes(part) + 2 * guard_bytes(part); }

static struct part empty_part(char kind) {
    struct part part = {0};
    part.size = kind == 'b' || kind == 'B' ? 1 : 4;
    part.is_lent = kind == 'B' || kind == 'C';
    return part;
}

static struct request read_request(int call) {
    struct request request = {call, 0, {{0}}};
    for (const char *kind = kinds(call); *kind; kind++) {
        struct part *part = &request.parts[request.count++];
        *part = empty_part(*kind);
        part->length = read_number();
    }
    for (int i = 0; i < request.count; i++) {
        struct part *part = &request.parts[i];
        part->before = memory(cell_bytes(*part));
        part->block = memory(block_bytes(*part));
        part->cells = part->block + guard_bytes(*part);
        read_exactly(part->before, cell_bytes(*part));
    }
    return request;
}

static void fill(struct part part) {
    memset(part.block, GUARD_BYTE, block_bytes(part));
    memcpy(part.cells, part.before, cell_bytes(part));
}

static int is_kept(struct part part) {
    const uint8_t *after = part.cells + cell_bytes(part);
    for (size_t i = 0; i < guard_bytes(part); i++)
        if (part.block[i] != GUARD_BYTE || after[i] != GUARD_BYTE) return 0;
    return part.is_lent || memcmp(part.cells, part.before, cell_bytes(part)) == 0;
}

static uint64_t called(const struct request *request, int with_null) {
    const struct part *part = request->parts;
    void *at[MOST_PARTS];
    for (int i = 0; i < request->count; i++)
        at[i] = with_null && !part[i].length ? NULL : part[i].cells;
    switch (request->call) {
    case 'M': return plq_make_certificate(at[0], part[0].length, at[1], part[1].length);
    case 'C': return plq_check_certificate(at[0], part[0].length, at[1], part[1].length);
    case 'R': return plq_report(at[0], part[0].length, at[1], part[1].length);
    default:
        return plq_answer(at[0], part[0].length, at[1], part[1].length, at[2], part[2].length,
                          at[3], part[3].length, at[4], part[4].length, at[5]);
    }
}

static size_t response_bytes(const struct request *request) {
    size_t length = OPENING;
    for (int i = 0; i < request->count; i++)
        if (request->parts[i].is_lent) length += cell_bytes(request->parts[i]);
    return length;
}

static uint8_t *response(const struct request *request, int with_null) {
    uint8_t *bytes = memory(response_bytes(request)), *end = bytes + OPENING;
    for (int i = 0; i < request->count; i++) fill(request->parts[i]);

    uint64_t number = called(request, with_null);

    for (int i = 0; i < NUMBER; i++) bytes[i] = (uint8_t)(number >> 8 * i);
    bytes[NUMBER] = KEPT;
    for (int i = 0; i < request->count; i++) {
        struct part part = request->parts[i];
        if (!is_kept(part)) bytes[NUMBER] = CHANGED;
        if (!part.is_lent) continue;
        memcpy(end, part.cells, cell_bytes(part));
        end += cell_bytes(part);
    }
    return bytes;
}

static void respond(const struct request *request) {
    size_t length = response_bytes(request);
    uint8_t *bytes = response(request, 0);
    int has_empty = 0;
    for (int i = 0; i < request->count; i++) has_empty |= !request->parts[i].length;
    if (has_empty) {
        uint8_t *with_null = response(request, 1);
        if (bytes[NUMBER] == KEPT && memcmp(bytes, with_null, length) != 0)
            bytes[NUMBER] = OTHER_WITH_NULL;
        free(with_null);
    }
    write_exactly(bytes, length);
    free(bytes);
}

int main(void) {
    int call;
    while ((call = getchar()) != EOF) {
        struct request request = read_request(call);
        respond(&request);
        for (int i = 0; i < request.count; i++) {
            free(request.parts[i].before);
            free(request.parts[i].block);
        }
        fflush(stdout);
    }
    return 0;
}
