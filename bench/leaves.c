// Times the operations in libleaves.a, and prints a line for each: nanoseconds of processor time in a small state and in the largest.
#define _POSIX_C_SOURCE 200809L
#include <stdbool.h>
#include <stddef.h>
#include <stdint.h>
#include <stdio.h>
#include <time.h>

void prepare(uint8_t *s, size_t s_length, bool is_large, uint64_t which);
void repeat(uint8_t *s, size_t s_length, bool is_large, uint64_t which, uint64_t n);

static uint8_t small_state[48000];
static uint8_t large_state[9870000];

static uint64_t nanoseconds_now(void) {
    struct timespec t;
    clock_gettime(CLOCK_PROCESS_CPUTIME_ID, &t);
    return (uint64_t)t.tv_sec * 1000000000 + (uint64_t)t.tv_nsec;
}

// The time of an operation, n times.
static uint64_t time_of(uint8_t *s, size_t s_length, bool is_large, uint64_t which, uint64_t n) {
    uint64_t start = nanoseconds_now();
    repeat(s, s_length, is_large, which, n);
    return nanoseconds_now() - start;
}

// The time of one operation: the shortest of five runs of as many as take 0.2 s or more.
static double measure(uint8_t *s, size_t s_length, bool is_large, uint64_t which) {
    prepare(s, s_length, is_large, which);
    uint64_t n = 1000;
    while (time_of(s, s_length, is_large, which, n) < 200000000) n *= 2;
    uint64_t shortest = UINT64_MAX;
    for (int turn = 0; turn < 5; turn++) {
        uint64_t t = time_of(s, s_length, is_large, which, n);
        if (t < shortest) shortest = t;
    }
    return (double)shortest / (double)n;
}

int main(void) {
    static const char *const names[] = {
        "taken off the run queue and queued",   "record taken and freed",
        "cell and message taken and freed",     "timer added and removed, at the head",
        "timer added and removed, at the end",
    };
    printf("%-42s %20s %24s\n", "nanoseconds for one", "P = 16, C = 256", "P = 4,096, C = 65,000");
    for (uint64_t which = 0; which < 5; which++) {
        double in_small = measure(small_state, sizeof small_state, false, which);
        double in_large = measure(large_state, sizeof large_state, true, which);
        printf("%-42s %20.1f %24.1f\n", names[which], in_small, in_large);
    }
    return 0;
}
