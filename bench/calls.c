/* Times the two C calls within one process.

   calls RUNS FILE

   Makes the certificate of the plan text in FILE and checks it, and prints the
   rank, then the median of each call in seconds, and that of checking no bytes
   at all: such a call reads the text, and little else. */

#include "plq.h"
#include "timed.h"

enum { RANK = 3 }; /* the rank's place in a certificate's header */
enum { NO_CERTIFICATE = 10 };

static uint8_t certificate[PLQ_LARGEST_CERTIFICATE];

/* The seconds since `start`, of a call that must have given what is expected. */
static double ended(double start, uint64_t result, uint64_t expected) {
    double seconds = now() - start;
    if (result != expected) exit(3);
    return seconds;
}

static double checking(const struct text *plan, size_t length, uint64_t expected) {
    double start = now();
    uint64_t result = plq_check_certificate(plan->bytes, plan->length, certificate, length);
    return ended(start, result, expected);
}

static double make(void *given) {
    const struct text *plan = given;
    size_t length = plq_certificate_length(certificate);
    double start = now();
    uint64_t result = plq_make_certificate(plan->bytes, plan->length, certificate, length);
    return ended(start, result, 0);
}

static double check(void *given) {
    return checking(given, plq_certificate_length(certificate), 0);
}

static double reading(void *given) {
    return checking(given, 0, NO_CERTIFICATE);
}

int main(int argc, char **argv) {
    static struct text plan;
    int most = argc > 2 ? runs_asked(argv[1]) : 0;
    if (most == 0 || !read_text(argv[2], &plan)) return 2;
    uint64_t result =
        plq_make_certificate(plan.bytes, plan.length, certificate, sizeof certificate);
    if (result != 0) {
        fprintf(stderr, "calls: refused %u at %lu\n", plq_number(result),
                (unsigned long)plq_detail(result));
        return 3;
    }
    printf("%lu ", (unsigned long)plq_header_number(certificate, RANK));
    printf("%.9f ", median_seconds(make, &plan, most, 1.0));
    printf("%.9f ", median_seconds(check, &plan, most, 1.0));
    printf("%.9f\n", median_seconds(reading, &plan, most, 1.0));
    return 0;
}
