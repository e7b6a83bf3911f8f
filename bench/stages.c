/* Times reading with factoring within one process.

   stages RUNS FILE

   Prints `rank seconds` for the plan text in FILE. The seconds are a median;
   the rank is -1 where the call gives 0, as it does where it refuses: none of
   the benchmark plans has the rank 0. */

#include "plq_timing.h"
#include "timed.h"

static struct text plan;
static long rank;

static double factoring(void *unused) {
    (void)unused;
    double start = now();
    rank = (long)plq_time_factoring(plan.bytes, plan.length);
    return now() - start;
}

int main(int argc, char **argv) {
    int most = argc > 2 ? runs_asked(argv[1]) : 0;
    if (most == 0 || !read_text(argv[2], &plan)) return 2;
    double seconds = median_seconds(factoring, NULL, most, 1.0);
    printf("%ld %.9f\n", rank > 0 ? rank : -1, seconds);
    return 0;
}
