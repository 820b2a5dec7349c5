/* As y is 0, a[0] is read; where it is 1, the read races with the task. */
#include <stdint.h>
static uint64_t a[2], x, y;
int main(void)
{
    #pragma omp parallel
    #pragma omp single
    {
        #pragma omp task depend(out: a[1])
        a[1] = 7;
        x = a[y % 2];
    }
    return 0;
}
