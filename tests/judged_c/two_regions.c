/* The tasks of the first region have ended where the second one begins. */
#include <stdint.h>
static uint64_t x, y;
int main(void)
{
    #pragma omp parallel
    #pragma omp single
    {
        #pragma omp task depend(out: x)
        x = 1;
    }
    #pragma omp parallel
    #pragma omp single
    y = x;
    return 0;
}
