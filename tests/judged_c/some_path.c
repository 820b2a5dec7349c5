/* Nothing races as x is 0; where it isn't, the last assignment races with the task. */
#include <stdint.h>

uint64_t a[2], x;

int main(void)
{
    #pragma omp parallel
    #pragma omp single
    {
        if (x != 0) {
            #pragma omp task depend(out: a[0])
            a[0] = 7;
        }
        a[1] = a[0] + 1;
    }
    return 0;
}
