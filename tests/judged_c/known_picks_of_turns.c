/* Turns decide what is picked: of the two tasks one writes what the second turn reads, where y is 0 or isn't. */
#include <stdint.h>
static uint64_t a[4], b[4], y;
int main(void)
{
    #pragma omp parallel
    #pragma omp single
    {
        #pragma omp task depend(out: a[0])
        a[0] = 1;
        #pragma omp task depend(out: a[3])
        a[3] = 1;
        for (int i = 1; i < 3; i++)
            b[i] = a[(uint64_t)i % 4];
        for (int i = 2; i < 4; i++) {
            if (y == 1)
                b[i] = a[(uint64_t)i % 4];
        }
    }
    return 0;
}
