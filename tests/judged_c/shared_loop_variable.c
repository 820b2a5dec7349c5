/* A loop's variable is shared with tasks that may run later. */
#include <stdint.h>
#include <stdio.h>
int main(void)
{
    static uint64_t a[4];
    #pragma omp parallel
    #pragma omp single
    for (int i = 0; i < 4; i++) {
        #pragma omp task shared(i)
        a[i] = 1;
    }
    printf("%lu\n", a[0]);
    return 0;
}
