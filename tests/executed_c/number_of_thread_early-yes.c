#include <omp.h>
#include <stdio.h>

/* The sum is read before the tasks have ended. */
long many[64];

int main(void)
{
    long all = 0;
    #pragma omp parallel
    #pragma omp single
    {
        for (int i = 0; i < 10; i++) {
            #pragma omp task
            many[omp_get_thread_num()] += i;
        }
        for (int t = 0; t < 64; t++)
            all += many[t];
    }
    printf("%ld\n", all);
    return 0;
}
