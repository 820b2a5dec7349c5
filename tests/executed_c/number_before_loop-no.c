#include <omp.h>
#include <stdio.h>
#define N 100

/* Each thread asks for its number before the loops, and counts there: in a variable of its own, and in one that is private. */
double sums[64], wide[64][8];

int main(void)
{
    double values[N], all = 0;
    int number;
    for (int i = 0; i < N; i++)
        values[i] = i;
    #pragma omp parallel
    {
        int id = omp_get_thread_num();
        #pragma omp for
        for (int i = 0; i < N; i++)
            sums[id] += values[i];
        #pragma omp for schedule(dynamic)
        for (int i = 0; i < N; i++)
            wide[id][0] += values[i];
    }
    #pragma omp parallel private(number)
    {
        number = omp_get_thread_num();
        #pragma omp for
        for (int i = 0; i < N; i++)
            sums[number] += values[i];
        #pragma omp sections
        {
            #pragma omp section
            sums[number] += 1;
            #pragma omp section
            sums[number] += 2;
        }
    }
    #pragma omp parallel for
    for (int i = 0; i < N; i++)
        sums[omp_get_thread_num()] += values[i];
    for (int t = 0; t < 64; t++)
        all += sums[t];
    printf("%f\n", all);
    return 0;
}
