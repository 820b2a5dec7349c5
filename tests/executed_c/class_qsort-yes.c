/* An array is read while a task sorts it. */
#include <stdio.h>
#include <stdlib.h>
static int compare(const void *a, const void *b)
{
    return *(const int *)a - *(const int *)b;
}
int main(void)
{
    int x[20];
    for (int i = 0; i < 20; i++) x[i] = 20 - i;
    #pragma omp parallel
    #pragma omp single
    {
        #pragma omp task
        qsort(x, 20, sizeof x[0], compare);
        printf("%d\n", x[0]);
    }
    return 0;
}
