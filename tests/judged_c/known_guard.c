/* The first turn takes no body, so a[i - 1] is named from the second turn on alone: a chain. */
#include <stdint.h>
static uint64_t a[4];
int main(void)
{
    #pragma omp parallel
    #pragma omp single
    {
        for (int i = 0; i < 4; i++) {
            if (i > 0) {
                #pragma omp task depend(in: a[i - 1]) depend(out: a[i])
                a[i] = a[i - 1];
            }
        }
    }
    return 0;
}
