/* The halves are merged before they are sorted. */
#include <stdio.h>
#include <stdlib.h>

void merge(int *a, int n, int m)
{
    int *x = malloc(n * sizeof(int));
    int i, j, k;
    for (i = 0, j = m, k = 0; k < n; k++)
        x[k] = j == n ? a[i++] : i == m ? a[j++] : a[j] < a[i] ? a[j++] : a[i++];
    for (i = 0; i < n; i++)
        a[i] = x[i];
    free(x);
}

void merge_sort(int *a, int n)
{
    if (n < 2)
        return;
    int m = n / 2;
    #pragma omp task
    merge_sort(a, m);
    #pragma omp task
    merge_sort(a + m, n - m);
    merge(a, n, m);
}

int main()
{
    int a[] = {4, 65, 2, -31, 0, 99, 2, 83, 782, 1};
    int n = sizeof a / sizeof a[0];
    #pragma omp parallel
    #pragma omp single
    merge_sort(a, n);
    for (int i = 0; i < n; i++)
        printf("%d%s", a[i], i == n - 1 ? "\n" : " ");
    return 0;
}
