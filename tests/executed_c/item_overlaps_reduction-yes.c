#include <stdint.h>
/* Runtimes order items by the cells where they begin: nothing orders the first task and the end of the group. */
uint64_t a[4];
int main(void)
{
    #pragma omp parallel
    #pragma omp single
    {
        uint64_t *p = &a[1];
        #pragma omp task depend(out: a[0:2])
        a[1] = 5;
        #pragma omp taskgroup task_reduction(+: p[0:1])
        {
            #pragma omp task depend(in: a[1]) in_reduction(+: p[0:1])
            p[0] += 1;
        }
    }
    return 0;
}
