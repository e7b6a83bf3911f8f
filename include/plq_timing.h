/* What the benchmark times within one process beside the calls of plq.h: calls that serve measuring alone.
 *
 * Link with target/staticlib/libbench_calls.a and, for the calls on a stored plan, libbench_stored.a, which `make benchmark`
 * writes; libplq.a may be linked to the same program.
 *
 * A call needs about 680 KiB of stack, whatever the plan, and no other memory; the library keeps nothing between calls.
 */
#ifndef PLQ_TIMING_H
#define PLQ_TIMING_H

#include <stddef.h>
#include <stdint.h>

#ifdef __cplusplus
extern "C" {
#endif

/* Reads a plan's text and factors the plan.
 *   takes    a plan text
 *   gives    the plan's rank; 0 where reading or factoring refuses
 *   leaves   nothing: the text is only read */
uint64_t plq_time_factoring(const uint8_t *text, size_t text_length);

/* The bytes that hold any line of words. */
#define PLQ_WORDS_ROOM 65536

/* Writes the line of the words that give slot values: what the question program prints for a text with the verb `words`, refusals too.
 *   takes    a text, slot values of any number, and a buffer of any length and content
 *   gives    the length of the line, which stands in the buffer; 0 for a buffer of fewer than PLQ_WORDS_ROOM bytes, or for more than 2,049 values
 *   leaves   the buffer zero past the line; the text and the values are only read */
uint64_t plq_time_words(const uint8_t *text, size_t text_length, const uint32_t *values, size_t values_length, uint8_t *out, size_t out_length);

/* Factors a stored plan, in lists of the caller's: the library's `factor`, for a plan without owners.
 *   takes    the modulus and the sizes; n + 1 row starts, columns and values; lists for R (n cells), C (m), L and U (n + 1 starts each, columns
 *            and values of any one length), and a working row of 2,048 cells
 *   gives    the rank; 0 where it refuses
 *   leaves   R, C, L and U, zero past their ends, all zero after a refusal; the working row all zero */
uint64_t plq_time_factor(uint32_t p, uint32_t n, uint32_t m, const uint32_t *starts, size_t starts_length, const uint32_t *cols, size_t cols_length,
                         const uint32_t *vals, size_t vals_length, uint32_t *ro, size_t ro_length, uint32_t *co, size_t co_length, uint32_t *ls,
                         size_t ls_length, uint32_t *lc, size_t lc_length, uint32_t *lv, size_t lv_length, uint32_t *us, size_t us_length,
                         uint32_t *uc, size_t uc_length, uint32_t *uv, size_t uv_length, uint64_t *work, size_t work_length);

/* Checks stored factors, cut to their lengths: the library's `check_factors`, for a plan without owners.
 *   gives    the number of the table of refusals, 0 where the set passes
 *   leaves   the working row all zero */
uint64_t plq_time_check(uint32_t p, uint32_t n, uint32_t m, const uint32_t *starts, size_t starts_length, const uint32_t *cols, size_t cols_length,
                        const uint32_t *vals, size_t vals_length, uint32_t r, const uint32_t *ro, size_t ro_length, const uint32_t *co,
                        size_t co_length, const uint32_t *ls, size_t ls_length, const uint32_t *lc, size_t lc_length, const uint32_t *lv,
                        size_t lv_length, const uint32_t *us, size_t us_length, const uint32_t *uc, size_t uc_length, const uint32_t *uv,
                        size_t uv_length, uint64_t *work, size_t work_length);

/* Checks stored factors and lists the open words in m cells: the library's `open_columns_from_factors`, for a plan without owners.
 *   gives    the number of the table of refusals, 0 where the set passes
 *   leaves   1 for each open word and 0 for each other, all zero after a refusal; the working row all zero */
uint64_t plq_time_open(uint32_t p, uint32_t n, uint32_t m, const uint32_t *starts, size_t starts_length, const uint32_t *cols, size_t cols_length,
                       const uint32_t *vals, size_t vals_length, uint32_t r, const uint32_t *ro, size_t ro_length, const uint32_t *co,
                       size_t co_length, const uint32_t *ls, size_t ls_length, const uint32_t *lc, size_t lc_length, const uint32_t *lv,
                       size_t lv_length, const uint32_t *us, size_t us_length, const uint32_t *uc, size_t uc_length, const uint32_t *uv,
                       size_t uv_length, uint32_t *marks, size_t marks_length, uint64_t *work, size_t work_length);

#ifdef __cplusplus
}
#endif

#endif
