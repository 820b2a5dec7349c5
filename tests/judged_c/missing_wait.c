/* The last statement reads what a task may still write; without the wait it races, with it all is taken. */
#include <stdint.h>
#include <stdio.h>
static uint64_t a[2], x = 5;
int main(void)
{
    #pragma omp parallel
    #pragma omp single
    {
        #pragma omp task depend(inout: x)
        x += 2;
        #pragma omp taskwait
        a[1] = x;
        #pragma omp task depend(out: a[0])
        a[0] = 7;
        a[1] += a[0];
    }
    return 0;
}
