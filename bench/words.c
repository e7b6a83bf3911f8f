/* Times the words from slot values within one process: reading, factoring, the
   check of the factors, solving, and the line in a buffer.

   words RUNS FILE

   Prints `rank seconds` for the plan text in FILE where all slots are 0, so
   that there is a setting. The rank is that of factoring; it is -1 where the
   line is a refusal. The seconds are a median. */

#include <string.h>

#include "plq_timing.h"
#include "timed.h"

/* One more than a plan may have. */
enum { MOST_SLOTS = 2049 };

static struct text plan;
static size_t slots;
static uint8_t printed[PLQ_WORDS_ROOM];

static double words(void *unused) {
    static const uint32_t zeros[MOST_SLOTS];
    (void)unused;
    double start = now();
    plq_time_words(plan.bytes, plan.length, zeros, slots, printed, sizeof printed);
    return now() - start;
}

/* The second number of a plan text: n, after the modulus. A text that says more
   than there are zeros is refused whatever the slots are; then 0 is as good. */
static size_t slots_of(const struct text *text) {
    char *rest;
    strtoul((const char *)text->bytes, &rest, 10);
    unsigned long count = strtoul(rest, NULL, 10);
    return count <= MOST_SLOTS ? count : 0;
}

int main(int argc, char **argv) {
    int most = argc > 2 ? runs_asked(argv[1]) : 0;
    if (most == 0 || !read_text(argv[2], &plan)) return 2;
    slots = slots_of(&plan);
    long rank = (long)plq_time_factoring(plan.bytes, plan.length);
    double seconds = median_seconds(words, NULL, most, 1.0);
    if (strncmp((const char *)printed, "words", strlen("words")) != 0) rank = -1;
    printf("%ld %.9f\n", rank, seconds);
    return 0;
}
