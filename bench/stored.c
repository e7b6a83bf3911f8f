/* Times factoring, the check and the open words of a stored plan, without reading, within one process.

   stored RUNS ROOM FILE

   Stores the plan whose text is in FILE, its triples rising, and lends ROOM
   entries to each of L and U. Prints the rank, then the median of each call in
   seconds: factoring, the check of its factors, and the check with the list of
   open words. The rank is -1 where factoring refuses. */

#include "plq_timing.h"
#include "timed.h"

enum { MOST_SIZE = 2048, MOST_ENTRIES = 16384 };

static uint32_t p, n, m, r;
static uint32_t starts[MOST_SIZE + 1], cols[MOST_ENTRIES], vals[MOST_ENTRIES];
static uint32_t ro[MOST_SIZE], co[MOST_SIZE], ls[MOST_SIZE + 1], us[MOST_SIZE + 1];
static uint32_t *lc, *lv, *uc, *uv, marks[MOST_SIZE];
static uint64_t work[MOST_SIZE];
static size_t entries, room;

/* A plan text with rising triples; 0 where it is none. */
static int store(const char *path) {
    FILE *file = fopen(path, "rb");
    uint32_t i, j, row = 0;
    int64_t v;
    if (!file || fscanf(file, "%u %u %u M", &p, &n, &m) != 3 || n > MOST_SIZE || m > MOST_SIZE) return 0;
    while (fscanf(file, "%u %u %ld", &i, &j, &v) == 3 && i != 0) {
        while (row < i) starts[row++] = entries;
        if (entries == MOST_ENTRIES) return 0;
        cols[entries] = j - 1;
        vals[entries++] = (uint32_t)((v % (int64_t)p + p) % p);
    }
    while (row <= n) starts[row++] = entries;
    fclose(file);
    return 1;
}

static double factor(void *unused) {
    (void)unused;
    double start = now();
    r = plq_time_factor(p, n, m, starts, n + 1, cols, entries, vals, entries, ro, n, co, m, ls, n + 1, lc, room,
                        lv, room, us, n + 1, uc, room, uv, room, work, MOST_SIZE);
    return now() - start;
}

static double check(void *unused) {
    (void)unused;
    double start = now();
    uint64_t number = plq_time_check(p, n, m, starts, n + 1, cols, entries, vals, entries, r, ro, n, co, m, ls,
                                     n + 1, lc, ls[n], lv, ls[n], us, r + 1, uc, us[r], uv, us[r], work, MOST_SIZE);
    double seconds = now() - start;
    if (number != 0) exit(3);
    return seconds;
}

static double list_open(void *unused) {
    (void)unused;
    double start = now();
    uint64_t number = plq_time_open(p, n, m, starts, n + 1, cols, entries, vals, entries, r, ro, n, co, m, ls,
                                    n + 1, lc, ls[n], lv, ls[n], us, r + 1, uc, us[r], uv, us[r], marks, m, work,
                                    MOST_SIZE);
    double seconds = now() - start;
    if (number != 0) exit(3);
    return seconds;
}

int main(int argc, char **argv) {
    int most = argc > 3 ? runs_asked(argv[1]) : 0;
    room = argc > 3 ? strtoul(argv[2], NULL, 10) : 0;
    if (most == 0 || !store(argv[3])) return 2;
    lc = calloc(room + 1, sizeof *lc), lv = calloc(room + 1, sizeof *lv);
    uc = calloc(room + 1, sizeof *uc), uv = calloc(room + 1, sizeof *uv);
    if (!lc || !lv || !uc || !uv) return 2;
    double factoring = median_seconds(factor, NULL, most, 1.0);
    if (r == 0) {
        printf("-1 %.9f 0 0\n", factoring);
        return 0;
    }
    double checking = median_seconds(check, NULL, most, 1.0);
    printf("%u %.9f %.9f %.9f\n", r, factoring, checking, median_seconds(list_open, NULL, most, 1.0));
    return 0;
}
