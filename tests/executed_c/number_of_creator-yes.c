#include <omp.h>
#include <stdio.h>

/* The number is that of the thread that creates the tasks, and not of those that execute them. */
long many[64];

int main(void)
{
    #pragma omp parallel
    {
        int id = omp_get_thread_num();
        for (int i = 0; i < 10; i++) {
            #pragma omp task
            many[id] += i;
        }
    }
    printf("%ld\n", many[0]);
    return 0;
}
