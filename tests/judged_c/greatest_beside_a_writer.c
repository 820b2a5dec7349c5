/* An if that keeps the greatest number isn't behind the task that writes it: in_reduction makes no dependence. */
#include <stdint.h>
#include <stdio.h>
int main(void)
{
    static uint64_t a[2] = {1, 2};
    uint64_t most = 0;
    #pragma omp parallel
    #pragma omp single
    {
        #pragma omp task depend(out: most)
        most = 5;
        #pragma omp taskgroup task_reduction(max: most)
        {
            #pragma omp task depend(in: a[1]) in_reduction(max: most)
            if (most < a[1])
                most = a[1];
        }
    }
    printf("%lu\n", most);
    return 0;
}
