// The plain C that `decimals` of crates/bench is measured against: the same inputs, the same sums, __int128.
#include <stdint.h>
#include <stdio.h>
#include <stdlib.h>
#include <time.h>

typedef __int128 wide;
typedef unsigned __int128 size;

enum { CASES = 1024, OVER = 1, TOO_BIG = 2 };

struct division { wide n, d; int up; int rounds; };
struct value { wide units; unsigned scale, digits, to; int rounds; };

static size ten[39];

static wide with_sign(size s, int negative) { return negative ? -(wide)s : (wide)s; }

static int quot(wide n, wide d, int up, int rounds, wide *answer) {
    if (d == 0) return OVER;
    size top = n < 0 ? -(size)n : (size)n, bottom = d < 0 ? -(size)d : (size)d, q;
    if (up < 0) {
        q = rounds ? (top / (5 * ten[-up - 1]) + bottom) / (2 * bottom) : top / ten[-up] / bottom;
    } else {
        int most = bottom < ten[18] ? 19 : 1;
        q = top / bottom;
        size rest = top % bottom;
        for (int place = 0; place < up;) {
            int digits = most < up - place ? most : up - place;
            if (q >= ten[37 - digits]) return OVER;
            size raised = rest * ten[digits];
            q = q * ten[digits] + raised / bottom;
            rest = raised % bottom;
            place += digits;
        }
        if (rounds && rest >= bottom - rest) q++;
        if (q >= ten[37]) return OVER;
    }
    *answer = with_sign(q, (n < 0) != (d < 0));
    return 0;
}

static int fit(wide units, unsigned from, unsigned digits, unsigned to, int rounds, int64_t *answer) {
    size s = units < 0 ? -(size)units : (size)units, moved;
    if (from <= to) {
        if (s >= ten[digits]) return TOO_BIG;
        moved = s * ten[to - from];
    } else {
        size bottom = ten[from - to], rest = s % bottom;
        moved = s / bottom;
        if (rounds && rest >= bottom - rest) moved++;
    }
    if (moved >= ten[digits]) return TOO_BIG;
    *answer = (int64_t)with_sign(moved, units < 0);
    return 0;
}

static uint64_t state = 88172645463325252u;

static uint64_t next(void) {
    state ^= state << 13;
    state ^= state >> 7;
    state ^= state << 17;
    return state;
}

static wide number(void) {
    unsigned digits = next() % 38;
    size high = next(), low = next();
    size s = (high * 18446744073709551615u + low) % ten[digits];
    return with_sign(s, next() % 2);
}

static long long nanoseconds(void) {
    struct timespec t;
    clock_gettime(CLOCK_PROCESS_CPUTIME_ID, &t);
    return t.tv_sec * 1000000000LL + t.tv_nsec;
}

static void print_decimal(size s) {
    if (s >= 10) print_decimal(s / 10);
    putchar('0' + (int)(s % 10));
}

static void show(const char *name, wide sum, long long taken) {
    printf("%s %s", name, sum < 0 ? "-" : "");
    print_decimal(sum < 0 ? -(size)sum : (size)sum);
    putchar('\n');
    fprintf(stderr, "%s %lld\n", name, taken);
}

int main(int argc, char **argv) {
    int turns = argc > 1 ? atoi(argv[1]) : 1;
    static struct division divisions[CASES];
    static struct value values[CASES];
    ten[0] = 1;
    for (int k = 1; k < 39; k++) ten[k] = ten[k - 1] * 10;
    for (int i = 0; i < CASES; i++) {
        wide n = number();
        wide d = number();
        int up = (int)(next() % 93) - 37;
        divisions[i] = (struct division){ n, d, up, next() % 2 };
    }
    for (int i = 0; i < CASES; i++) {
        unsigned digits = 1 + next() % 18;
        wide units = number();
        unsigned from = next() % 38;
        unsigned to = next() % (digits + 1);
        values[i] = (struct value){ units, from, digits, to, next() % 2 };
    }
    size sum = 0;
    long long start = nanoseconds();
    for (int t = 0; t < turns; t++)
        for (int i = 0; i < CASES; i++) {
            wide q;
            const struct division *c = &divisions[i];
            int refused = quot(c->n, c->d, c->up, c->rounds, &q);
            sum += refused ? refused : (size)q;
        }
    show("quot", sum, nanoseconds() - start);
    sum = 0;
    start = nanoseconds();
    for (int t = 0; t < turns; t++)
        for (int i = 0; i < CASES; i++) {
            int64_t z;
            const struct value *c = &values[i];
            int refused = fit(c->units, c->scale, c->digits, c->to, c->rounds, &z);
            sum += refused ? refused : (size)(wide)z;
        }
    show("fit", sum, nanoseconds() - start);
    return 0;
}
