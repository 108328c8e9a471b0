/* memset over as many bytes as each full-sized table has, for the benchmark of clearing. */
#include <stdio.h>
#include <stdlib.h>
#include <string.h>
#include <time.h>

static void measure(const char *name, size_t n) {
    unsigned char *p = malloc(n);
    struct timespec a, b;
    memset(p, 1, n);
    clock_gettime(CLOCK_MONOTONIC, &a);
    for (int i = 0; i < 20000; i++) {
        memset(p, 0, n);
        __asm__ volatile("" : : "r"(p) : "memory");
    }
    clock_gettime(CLOCK_MONOTONIC, &b);
    printf("%s %zu %lld\n", name, n, ((b.tv_sec - a.tv_sec) * 1000000000LL + (b.tv_nsec - a.tv_nsec)) / 20000);
    free(p);
}

int main(void) {
    measure("nodes", 294912);
    measure("links", 65536);
    measure("text", 65536);
    return 0;
}
