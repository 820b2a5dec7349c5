/* A task ends before its child: nothing else uses what that writes, and the language wants a wait. */
#include <stdint.h>
#include <stdio.h>
static uint64_t a[2];
int main(void)
{
    #pragma omp parallel
    #pragma omp single
    {
        #pragma omp task depend(out: a[0])
        {
            #pragma omp task depend(out: a[0])
            a[0] = 1;
        }
    }
    printf("%lu\n", a[0]);
    return 0;
}
