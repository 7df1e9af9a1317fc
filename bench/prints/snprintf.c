/* The report line of the benchmark beside it, printed by the C library: snprintf COUNT. */
#include <stdio.h>
#include <stdlib.h>
#include <time.h>

int main(int count_of_words, char **words) {
    long count = count_of_words > 1 ? atol(words[1]) : 1000000;
    unsigned long total = 0;
    struct timespec start, end;
    clock_gettime(CLOCK_MONOTONIC, &start);
    for (long i = 0; i < count; i++) {
        char line[256];
        total += snprintf(line, sizeof line, "%-20s|%8lld|%08llx|%+lld|%llo|%12.5s|%c|%llu|%llX|%lld\n",
                          "temperature", 31337LL, 48879LL, -42LL, 511LL, "north-west", 65,
                          3000000000LL, 171LL, 9007199254740993LL);
        __asm__ volatile("" : : "r"(line) : "memory");
    }
    clock_gettime(CLOCK_MONOTONIC, &end);
    long ms = (end.tv_sec - start.tv_sec) * 1000 + (end.tv_nsec - start.tv_nsec) / 1000000;
    printf("snprintf %ld lines: %lu bytes, %ld ms\n", count, total, ms);
    return 0;
}
