/* Times the whole report within one process.

   report RUNS FILE

   Prints `rank seconds` for the plan text in FILE. The rank is read from the
   report; the seconds are a median. */

#include <string.h>

#include "plq.h"
#include "timed.h"

static struct text plan;
static uint8_t report[PLQ_LARGEST_REPORT]; /* a zero stands after the longest one */

static double reporting(void *unused) {
    (void)unused;
    double start = now();
    uint64_t result = plq_report(plan.bytes, plan.length, report, sizeof report);
    double seconds = now() - start;
    if (result != 0) {
        fprintf(stderr, "report: refused %u at %lu\n", plq_number(result),
                (unsigned long)plq_detail(result));
        exit(3);
    }
    return seconds;
}

static long reported_rank(void) {
    const char *line = strstr((const char *)report, "\nrank ");
    return line ? atol(line + strlen("\nrank ")) : -1;
}

int main(int argc, char **argv) {
    int most = argc > 2 ? runs_asked(argv[1]) : 0;
    if (most == 0 || !read_text(argv[2], &plan)) return 2;
    double seconds = median_seconds(reporting, NULL, most, 1.0);
    printf("%ld %.9f\n", reported_rank(), seconds);
    return 0;
}
