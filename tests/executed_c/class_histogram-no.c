/* A histogram for each thread, and they are added one after another. */
#include <stdio.h>
#define N 200
#define BINS 10

int main(void)
{
    int data[N], hist[BINS] = {0};
    for (int i = 0; i < N; i++)
        data[i] = (i * 31 + 7) % 100;
    #pragma omp parallel
    {
        int local[BINS] = {0};
        #pragma omp for nowait
        for (int i = 0; i < N; i++)
            local[data[i] / 10]++;
        #pragma omp critical
        for (int b = 0; b < BINS; b++)
            hist[b] += local[b];
    }
    for (int b = 0; b < BINS; b++)
        printf("%d\n", hist[b]);
    return 0;
}
