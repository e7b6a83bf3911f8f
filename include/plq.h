/* What a listener can work out from the slots of a frame plan: four calls for programs in C and C++.
 *
 * Link with target/staticlib/libplq.a, which `make library` writes, or with -lplq where it is installed. x86-64 Linux.
 *
 * Every call returns one number: the table's number (enum plq_refusal) plus 256 times its detail; 0 is done. Whatever is wrong with what a call is
 * given is refused by such a number, and what it was lent is then all zero.
 *
 *   a text          a plan as docs/FORMATS.md describes it, at most 65,536 bytes
 *   a certificate   a set of factors as bytes, in the layout of docs/FORMATS.md, of any length
 *
 * Of pointers and lengths:
 *   - NULL is allowed with length 0 only; the verdict's pointer is never NULL.
 *   - What a call writes must not overlap anything else that it is given.
 *   - Nothing may change the bytes that a call reads while it runs. So copy a mapped file first: what another process writes to it shows in the mapping.
 *   - The library keeps nothing between calls and shares nothing, so that calls may run in several threads, each with what it is lent.
 *   - No memory is allocated. The stack that a call needs, whatever the plan, is PLQ_STACK at most; measured: plq_make_certificate 707 KiB,
 *     plq_check_certificate 376 KiB, plq_report 787 KiB, plq_answer 707 KiB.
 *
 * A text may state the owners of its words; a certificate has nothing of them, and passes with any.
 */
#ifndef PLQ_H
#define PLQ_H

#include <stddef.h>
#include <stdint.h>

#ifdef __cplusplus
extern "C" {
#endif

/* The version of the certificate's format. */
#define PLQ_FORMAT_VERSION 1

/* The table of numbers. Its detail is 0 where none is named. */
enum plq_refusal {
    PLQ_DONE = 0,                /* done, passed or answered */
    PLQ_BAD_MODULUS = 1,         /* p not prime, or not from 2 to 4,294,967,291 */
    PLQ_OVER_LIMIT = 2,          /* a size, entry or text limit passed */
    PLQ_MALFORMED = 3,           /* text malformed                                     detail: line, from 1 */
    PLQ_OUTSIDE_PLAN = 4,        /* i or j outside the plan, other than the last line  detail: line */
    PLQ_REPEATED_PLACE = 5,      /* i and j of an earlier triple                       detail: line, the later one */
    PLQ_VALUE_OUT_OF_RANGE = 6,  /* v outside its range                                detail: line */
    PLQ_STORAGE_TOO_SHORT = 7,   /* L or U has more than 16,384 entries                detail: row, from 0 */
    PLQ_BAD_PLAN = 8,            /* stored plan breaks its form: no call here returns it */
    PLQ_WRONG_LENGTH = 9,        /* a buffer too short, or y, x or z of another length than the plan's m, n and m */
    PLQ_BAD_HEADER = 10,         /* mark, version, length, or p, n, m unlike the plan */
    PLQ_NO_PERMUTATION = 11,     /* R or C no permutation */
    PLQ_RANK_TOO_LARGE = 12,     /* r above the smaller of n and m */
    PLQ_BAD_FACTORS = 13,        /* factor storage or shape broken */
    PLQ_PRODUCT_DIFFERS = 14,    /* product differs                                    detail: first position, from 0 */
    PLQ_QUESTION_TOO_LARGE = 15, /* a question value is p or more                      detail: its index, from 0 */
    PLQ_OWNER_TOO_LARGE = 16     /* an owner above 255                                 detail: line */
};

/* The number and the detail of a result. */
static inline unsigned plq_number(uint64_t result) { return (unsigned)(result % 256); }
static inline uint64_t plq_detail(uint64_t result) { return result / 256; }

/* Makes the certificate of a plan.
 *   takes    a plan text, and a buffer of any length and content
 *   gives    0, and the certificate in the buffer, zero past its end; its header says its length (plq_certificate_length)
 *   refuses  reading: 2, then the first line at fault, 3 to 6, 1, 2 or 16; then factoring, with 16,384 entries for each of L and U: 7; then
 *            writing: 9
 *   leaves   after a refusal the buffer all zero; the text is only read */
uint64_t plq_make_certificate(const uint8_t *text, size_t text_length, uint8_t *buffer, size_t buffer_length);

/* Checks a certificate, anybody's.
 *   takes    a plan text, and the bytes of a certificate, exactly as many as it has
 *   gives    0 exactly if the set that it holds has the published shape and its product is the plan
 *   refuses  reading as above; then checking: 10, 11, 12, 13, 14
 *   leaves   nothing: both are only read */
uint64_t plq_check_certificate(const uint8_t *text, size_t text_length, const uint8_t *certificate, size_t certificate_length);

/* Reports on a plan: its sizes, its rank, and its open words with their owners.
 *   takes    a plan text, and a buffer of any length and content; PLQ_LARGEST_REPORT bytes hold any report
 *   gives    0, and the report's lines in the buffer, zero past their end; a report has no zero byte
 *   refuses  reading and factoring as plq_make_certificate; then a buffer that does not hold the report: 9
 *   leaves   after a refusal the buffer all zero; the text is only read */
uint64_t plq_report(const uint8_t *text, size_t text_length, uint8_t *buffer, size_t buffer_length);

/* Answers a question about a plan: from a certificate, anybody's, which is checked first; or, where it has no bytes, from the engine's own factors.
 * So look first whether a certificate file is empty: that is no certificate, and plq_check_certificate refuses it (10).
 *   takes    a plan text; the bytes of a certificate, or none; a question y of m values; n cells for x, m cells for z, and one byte for the verdict
 *   gives    0, and the verdict: 1, open, with the x where xA = y; or 0, closed, with a z where Az = 0 and y·z is not 0
 *   refuses  reading as above; without a certificate then factoring: 7; then 9 for the lengths of y, x and z; 10 to 14 for the certificate; 15
 *   leaves   the one of x and z that is not the answer all zero; after a refusal both, and the verdict; the text, the certificate and y are only read */
uint64_t plq_answer(const uint8_t *text, size_t text_length, const uint8_t *certificate, size_t certificate_length,
                    const uint32_t *y, size_t y_length, uint32_t *x, size_t x_length, uint32_t *z, size_t z_length, uint8_t *verdict);

/* The most bytes of stack that a call needs. */
#define PLQ_STACK 1048576

/* The longest report, in bytes: less than this. */
#define PLQ_LARGEST_REPORT 65536

/* The largest certificate that plq_make_certificate writes, in bytes: n and m are at most 2,048, and L and U have at most 16,384 entries each.
 * One that somebody else made may be larger. */
#define PLQ_LARGEST_CERTIFICATE (29 + 4 * (2048 + 2048 + 2049 + 2 * 16384 + 2049 + 2 * 16384))

/* The 32-bit number k of a certificate's header: p, n, m, r, and the entry counts of L and U. */
static inline uint64_t plq_header_number(const uint8_t *certificate, size_t k)
{
    const uint8_t *at = certificate + 5 + 4 * k;
    return (uint64_t)at[0] | (uint64_t)at[1] << 8 | (uint64_t)at[2] << 16 | (uint64_t)at[3] << 24;
}

/* The length of a certificate that plq_make_certificate wrote, by its own header. */
static inline uint64_t plq_certificate_length(const uint8_t *certificate)
{
    uint64_t n = plq_header_number(certificate, 1), m = plq_header_number(certificate, 2), r = plq_header_number(certificate, 3);
    uint64_t l = plq_header_number(certificate, 4), u = plq_header_number(certificate, 5);
    return 29 + 4 * (n + m + (n + 1) + 2 * l + (r + 1) + 2 * u);
}

#ifdef __cplusplus
}
#endif

#endif
