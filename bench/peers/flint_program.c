/* FLINT as a program: the plan text on standard input, read by scanf into a full matrix; prints the rank. */

#include <stdio.h>
#include <flint/nmod_mat.h>

int main(void) {
    unsigned long p, i, j;
    long n, m, v;
    nmod_mat_t full;
    if (scanf("%lu %ld %ld M", &p, &n, &m) != 3) return 2;
    nmod_mat_init(full, n, m, p);
    while (scanf("%lu %lu %ld", &i, &j, &v) == 3 && i != 0)
        nmod_mat_entry(full, i - 1, j - 1) = (v % (long)p + (long)p) % (long)p;
    printf("%ld\n", (long)nmod_mat_rank(full));
    nmod_mat_clear(full);
    return 0;
}
