// The plain C that `matrices` of crates/bench is measured against: the algorithm of Floyd and Warshall on __int128,
// which cuts each sum at once, on the same matrices.
#include <stdint.h>
#include <stdio.h>
#include <stdlib.h>
#include <string.h>
#include <time.h>

typedef __int128 wide;
typedef unsigned __int128 size;

enum { INPUTS = 64, PLACES = 9, WORDS = PLACES * PLACES, DENSE = 0, CHAIN = 1 };

static wide none, largest;

__attribute__((noinline)) static int close_matrix(int places, wide *m) {
    for (int k = 0; k < places; k++)
        for (int i = 0; i < places; i++) {
            wide first = m[i * places + k];
            if (first == none) continue;
            for (int j = 0; j < places; j++) {
                wide second = m[k * places + j];
                if (second == none) continue;
                wide sum = first + second;
                if (sum > largest) sum = none;
                if (sum < -largest) sum = -largest;
                if (sum < m[i * places + j]) m[i * places + j] = sum;
            }
        }
    for (int i = 0; i < places; i++)
        if (m[i * places + i] < 0) return 0;
    return 1;
}

static uint64_t state;

static uint64_t next(void) {
    state ^= state << 13;
    state ^= state >> 7;
    state ^= state << 17;
    return state;
}

static wide bound(uint64_t base, int i, int j) {
    return (wide)(base >> i) - (wide)(base >> j) + (wide)(next() >> 5);
}

static uint64_t make(wide *m, int shape) {
    for (int k = 0; k < WORDS; k++) m[k] = none;
    for (int i = 0; i < PLACES; i++) m[i * PLACES + i] = 0;
    uint64_t base = next();
    for (int i = 0; i < PLACES; i++)
        for (int j = 0; j < PLACES; j++)
            if (i != j && (shape == DENSE || i + 1 == j || j + 1 == i))
                m[i * PLACES + j] = bound(base, i, j);
    return base;
}

static void lower(wide *word, wide most) {
    if (most < *word) *word = most;
}

// closes the matrix, and lowers the words of one row and of its column
static void change(wide *m, uint64_t base) {
    int at = (int)(next() % PLACES);
    close_matrix(PLACES, m);
    for (int k = 0; k < PLACES; k++) {
        if (k == at) continue;
        lower(&m[at * PLACES + k], bound(base, at, k));
        lower(&m[k * PLACES + at], bound(base, k, at));
    }
}

static long long nanoseconds(void) {
    struct timespec t;
    clock_gettime(CLOCK_PROCESS_CPUTIME_ID, &t);
    return t.tv_sec * 1000000000LL + t.tv_nsec;
}

static void print_decimal(size s) {
    if (s >= 10) print_decimal(s / 10);
    putchar('0' + (int)(s % 10));
}

static void print_number(wide z) {
    if (z < 0) putchar('-');
    print_decimal(z < 0 ? -(size)z : (size)z);
}

static void measure(const char *name, int shape, int changed, unsigned turns) {
    static wide matrices[INPUTS][WORDS];
    static uint64_t bases[INPUTS];
    wide words[WORDS];
    size all = 0, sum = 0;
    state = 88172645463325252u;
    for (int k = 0; k < INPUTS; k++) bases[k] = make(matrices[k], shape);
    state = 88172645463325252u;
    for (int k = 0; changed && k < INPUTS; k++) change(matrices[k], bases[k]);
    for (int k = 0; k < INPUTS; k++) {
        memcpy(words, matrices[k], sizeof words);
        if (close_matrix(PLACES, words))
            for (int w = 0; w < WORDS; w++) all += (size)words[w];
    }
    long long start = nanoseconds();
    for (unsigned turn = 0; turn < turns; turn++)
        for (int k = 0; k < INPUTS; k++) {
            memcpy(words, matrices[k], sizeof words);
            if (close_matrix(PLACES, words)) sum += (size)words[(turn + 1) % WORDS];
        }
    long long taken = nanoseconds() - start;
    printf("%s ", name);
    print_number((wide)all);
    putchar(' ');
    print_number((wide)sum);
    putchar('\n');
    fprintf(stderr, "%s %lld\n", name, taken);
}

int main(int argc, char **argv) {
    unsigned turns = argc > 1 ? (unsigned)atoi(argv[1]) : 1;
    largest = 1;
    for (int k = 0; k < 37; k++) largest *= 10;
    none = largest * 10;
    measure("dense", DENSE, 0, turns);
    measure("chain", CHAIN, 0, turns);
    measure("row", DENSE, 1, turns);
    return 0;
}
