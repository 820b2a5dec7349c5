/* A barrier among the threads of a team awaits the task that one of them created. */
#include <stdint.h>
#include <stdio.h>
int main(void)
{
    uint64_t a = 0;
    #pragma omp parallel
    {
        #pragma omp single
        {
            #pragma omp task depend(out: a)
            a = 2;
        }
        #pragma omp barrier
    }
    printf("%lu\n", a);
    return 0;
}
