#include <stdio.h>

/* The tasks take part by fewer cells than they touch: the last one is shared. */
int cells[8];

static void add(int n, int k)
{
    #pragma omp taskgroup task_reduction(+: cells[0:n])
    for (int i = 0; i < 4; i++) {
        #pragma omp task in_reduction(+: cells[0:n])
        {
            cells[i % n] += i;
            int *last = cells + k;
            *last += 1;
        }
    }
}

int main(void)
{
    #pragma omp parallel
    #pragma omp single
    {
        #pragma omp task
        cells[6] = 1;
        add(6, 5);
        cells[6] = 2;
    }
    printf("%d\n", cells[6]);
    return 0;
}
