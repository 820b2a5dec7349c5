#include <omp.h>
#include <stdio.h>

/* The variable has the thread's number first, and then another one. */
long many[64];

int main(void)
{
    #pragma omp parallel
    #pragma omp single
    for (int i = 0; i < 10; i++) {
        #pragma omp task
        {
            int id = omp_get_thread_num();
            id = 0;
            many[id] += i;
        }
    }
    printf("%ld\n", many[0]);
    return 0;
}
