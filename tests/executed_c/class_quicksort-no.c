/* Each task sorts its own part. */
#include <stdio.h>

#define N 40

int data[N];

void swap(int *a, int *b)
{
    int t = *a;
    *a = *b;
    *b = t;
}

int partition(int lo, int hi)
{
    int pivot = data[hi];
    int i = lo - 1;
    for (int j = lo; j < hi; j++)
        if (data[j] <= pivot)
            swap(&data[++i], &data[j]);
    swap(&data[i + 1], &data[hi]);
    return i + 1;
}

void quicksort(int lo, int hi)
{
    if (lo < hi) {
        int p = partition(lo, hi);
        #pragma omp task default(none) firstprivate(lo, p)
        quicksort(lo, p - 1);
        #pragma omp task default(none) firstprivate(hi, p)
        quicksort(p + 1, hi);
    }
}

int main(void)
{
    for (int i = 0; i < N; i++)
        data[i] = (i * 37) % 41;
    #pragma omp parallel
    {
        #pragma omp single
        {
            quicksort(0, N - 1);
            #pragma omp taskwait
        }
    }
    for (int i = 0; i < N; i++)
        printf("%d ", data[i]);
    printf("\n");
    return 0;
}
