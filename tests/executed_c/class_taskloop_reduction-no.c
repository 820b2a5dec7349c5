/* A `taskloop` that reduces. */
#include <stdio.h>
int a[100];
int main(void)
{
    int sum = 0;
    for (int i = 0; i < 100; i++) a[i] = i;
    #pragma omp parallel
    #pragma omp single
    #pragma omp taskloop reduction(+: sum)
    for (int i = 0; i < 100; i++)
        sum += a[i];
    printf("%d\n", sum);
    return 0;
}
