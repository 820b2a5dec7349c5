/* Tasks sort arrays of their own by a function of the library. */
#include <stdio.h>
#include <stdlib.h>
static int compare(const void *a, const void *b)
{
    return *(const int *)a - *(const int *)b;
}
int main(void)
{
    int x[20], y[20];
    for (int i = 0; i < 20; i++) x[i] = y[i] = 20 - i;
    #pragma omp parallel
    #pragma omp single
    {
        #pragma omp task
        qsort(x, 20, sizeof x[0], compare);
        #pragma omp task
        qsort(y, 20, sizeof y[0], compare);
    }
    printf("%d %d\n", x[0], y[0]);
    return 0;
}
