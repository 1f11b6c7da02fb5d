// The plain C that `blocks` of crates/bench is measured against: rows of 600 words of __int128 for a chain of 4,000
// nodes, each copied from the row before it and compared with it word by word.
#include <stdio.h>
#include <stdlib.h>
#include <string.h>
#include <time.h>

typedef __int128 wide;

enum { NODES = 4000, WORDS = 600 };

static long long nanoseconds(void) {
    struct timespec t;
    clock_gettime(CLOCK_PROCESS_CPUTIME_ID, &t);
    return t.tv_sec * 1000000000LL + t.tv_nsec;
}

__attribute__((noinline)) static int is_below(const wide *a, const wide *b) {
    for (int k = 0; k < WORDS; k++)
        if (a[k] > b[k]) return 0;
    return 1;
}

__attribute__((noinline)) static int solve(wide *rows) {
    int kept = 1;
    for (int k = 0; k < WORDS; k++) rows[k] = 1;
    for (int node = 1; node < NODES; node++) {
        wide *row = rows + (size_t)node * WORDS;
        memcpy(row, row - WORDS, WORDS * sizeof(wide));
        kept &= is_below(row - WORDS, row);
    }
    return kept;
}

int main(int argc, char **argv) {
    int turns = argc > 1 ? atoi(argv[1]) : 1;
    for (int turn = 0; turn < turns; turn++) {
        long long start = nanoseconds();
        wide *rows = malloc((size_t)NODES * WORDS * sizeof(wide));
        if (!rows) return 8;
        int kept = solve(rows);
        long long taken = nanoseconds() - start;
        printf("%d %s\n", (int)rows[(size_t)(NODES - 1) * WORDS], kept ? "true" : "false");
        fprintf(stderr, "%lld\n", taken);
        free(rows);
    }
    return 0;
}
