/* A function that is called by `*` before its name gives what it gives by its name, also as a side of `?:`. */
#include <stdio.h>

static long long beyond_int(void) {
    return 1LL << 40;
}

int main(void) {
    int x = 0;
    long long size = 1 ? (**beyond_int)() : 0;
    int same = sizeof((*beyond_int)()) == sizeof(long long);
#pragma omp parallel
#pragma omp single
    {
        if (size < 5 || !same) {
#pragma omp task shared(x)
            x = 1;
        }
#pragma omp task shared(x)
        x += 2;
    }
    printf("%d\n", x);
    return 0;
}
