/* Times the square roots, and compares the certified one with the hardware's at random patterns. */
#include <math.h>
#include <stdint.h>
#include <stdio.h>
#include <string.h>
#include <time.h>

double certified_square_root(double x);
double library_square_root(double x);

__attribute__((noinline)) static double hardware_square_root(double x) { return __builtin_sqrt(x); }

static uint64_t state = 88172645463325252ull;

static uint64_t next_pattern(void) {
    state ^= state << 13;
    state ^= state >> 7;
    state ^= state << 17;
    return state;
}

static double now_ns(void) {
    struct timespec t;
    clock_gettime(CLOCK_MONOTONIC, &t);
    return t.tv_sec * 1e9 + t.tv_nsec;
}

enum { COUNT = 4096, ROUNDS = 2000 };
static double numbers[COUNT];

static void time_root(const char *name, double (*root)(double)) {
    double sum = 0, start = now_ns();
    for (int k = 0; k < ROUNDS; k++)
        for (int i = 0; i < COUNT; i++) sum += root(numbers[i]);
    double each = (now_ns() - start) / ((double)ROUNDS * COUNT);
    printf("  %-22s %7.2f ns a call (sum %.6g)\n", name, each, sum);
}

static long differing(long count) {
    long bad = 0;
    for (long i = 0; i < count; i++) {
        uint64_t bits = next_pattern();
        double x, p, q;
        memcpy(&x, &bits, 8);
        p = certified_square_root(x);
        q = sqrt(x);
        if (!(p != p && q != q) && memcmp(&p, &q, 8)) bad++;
    }
    return bad;
}

int main(void) {
    printf("20000000 random patterns against the hardware: %ld differ\n", differing(20000000));
    for (int set = 0; set < 2; set++) {
        for (int i = 0; i < COUNT; i++) {
            uint64_t bits = next_pattern() >> 1;
            bits = bits % (2045ull << 52) + (1ull << 52);
            if (set == 0) numbers[i] = (double)(next_pattern() >> 11) * 0x1p-40;
            else memcpy(&numbers[i], &bits, 8);
        }
        printf("%s, throughput:\n", set ? "any normal number above 0" : "numbers below 8192");
        time_root("certified", certified_square_root);
        time_root("standard library", library_square_root);
        time_root("hardware", hardware_square_root);
    }
    return 0;
}
