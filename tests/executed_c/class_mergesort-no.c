/* Both halves are awaited before they are merged. */
#include <stdio.h>
#include <stdlib.h>
#include <string.h>

static void merge(int *a, int *tmp, int lo, int mid, int hi)
{
    int i = lo, j = mid, k = lo;
    while (i < mid && j < hi) {
        if (a[i] <= a[j])
            tmp[k++] = a[i++];
        else
            tmp[k++] = a[j++];
    }
    while (i < mid)
        tmp[k++] = a[i++];
    while (j < hi)
        tmp[k++] = a[j++];
    memcpy(a + lo, tmp + lo, (hi - lo) * sizeof(int));
}

static void sort(int *a, int *tmp, int lo, int hi)
{
    if (hi - lo < 2)
        return;
    int mid = lo + (hi - lo) / 2;
#pragma omp task
    sort(a, tmp, lo, mid);
#pragma omp task
    sort(a, tmp, mid, hi);
#pragma omp taskwait
    merge(a, tmp, lo, mid, hi);
}

int main(void)
{
    int n = 64;
    int *a = malloc(n * sizeof(int));
    int *tmp = malloc(n * sizeof(int));
    for (int i = 0; i < n; i++)
        a[i] = (i * 7919) % 101;
#pragma omp parallel
#pragma omp single
    sort(a, tmp, 0, n);
    for (int i = 1; i < n; i++)
        if (a[i - 1] > a[i]) {
            printf("wrong\n");
            return 1;
        }
    printf("sorted\n");
    free(a);
    free(tmp);
    return 0;
}
