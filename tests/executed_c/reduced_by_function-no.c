#include <stdio.h>
#define N 8

static void count(int *cells, int from, int to)
{
    for (int i = from; i < to; i++)
        cells[i % 4] += 1;
}

static void add(long *sum, int n)
{
    *sum += n;
}

int main(void)
{
    int cells[4] = {0}, *first = cells;
    long sum = 0;
    #pragma omp parallel
    #pragma omp single
    #pragma omp taskgroup task_reduction(+: first[0:4], sum)
    for (int k = 0; k < N; k++) {
        #pragma omp task in_reduction(+: first[0:4], sum)
        {
            count(first, k, k + 4);
            add(&sum, k);
            #pragma omp task in_reduction(+: sum)
            add(&sum, 1);
        }
    }
    #pragma omp parallel for reduction(+: cells)
    for (int k = 0; k < N; k++)
        count(cells, k, k + 2);
    #pragma omp parallel reduction(+: sum) reduction(+: cells[1:2])
    {
        add(&sum, 1);
        count(cells, 1, 3);
        #pragma omp barrier
        add(&sum, 1);
    }
    #pragma omp parallel
    #pragma omp single
    #pragma omp taskloop reduction(*: sum)
    for (int k = 1; k < N; k++) {
        long *mine = &sum;
        *mine *= 1;
    }
    printf("%d %ld\n", cells[0], sum);
    return 0;
}
