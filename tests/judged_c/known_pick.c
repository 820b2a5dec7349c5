/* 1 % 2 is 1: the task's cell isn't read, though a server takes the pick for a read of both. */
#include <stdint.h>
static uint64_t a[2], b[4];
int main(void)
{
    #pragma omp parallel
    #pragma omp single
    {
        #pragma omp task depend(out: a[0])
        a[0] = 1;
        for (int i = 0; i < 2; i++)
            b[i] = a[1 % 2];
    }
    return 0;
}
