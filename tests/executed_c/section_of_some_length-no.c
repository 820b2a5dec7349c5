#include <stdio.h>
#include <stdlib.h>

/* Sections of reductions whose length is met when they are executed, or is the rest of an array; and an array whose length is met. */
static void count(int n, const int *values, int buckets, int *many)
{
    #pragma omp taskgroup task_reduction(+: many[0:buckets])
    for (int i = 0; i < n; i += 16) {
        #pragma omp task in_reduction(+: many[0:buckets])
        for (int j = i; j < i + 16 && j < n; j++)
            many[values[j] % buckets]++;
    }
}

static double sum(int n, const double *values, double *parts)
{
    #pragma omp parallel for reduction(+: parts[:n])
    for (int i = 0; i < 100; i++)
        parts[i % n] += values[i];
    return parts[0];
}

static int rest(int k, int n)
{
    static int cells[10];
    int own[n];
    for (int i = 0; i < n; i++)
        own[i] = 0;
    #pragma omp parallel for reduction(+: own) reduction(+: cells[k:])
    for (int i = 0; i < 64; i++) {
        own[i % n] += i;
        cells[k + i % (10 - k)] += 1;
    }
    return own[0] + cells[k];
}

int main(void)
{
    int n = 128, buckets = 7;
    int *values = malloc(n * sizeof *values), *many = calloc(buckets, sizeof *many);
    double numbers[100], parts[10] = {0};
    for (int i = 0; i < n; i++)
        values[i] = i * 7919 % 1000;
    for (int i = 0; i < 100; i++)
        numbers[i] = i;
    #pragma omp parallel
    #pragma omp single
    count(n, values, buckets, many);
    printf("%d %f %d\n", many[0], sum(10, numbers, parts), rest(2, 5));
    free(values);
    free(many);
    return 0;
}
