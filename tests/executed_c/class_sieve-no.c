/* The multiples of one prime are struck out side by side. */
#include <stdio.h>
#include <stdlib.h>
#include <stdbool.h>
int main(void)
{
    int n = 100;
    bool *composite = calloc(n + 1, sizeof(bool));
    for (int p = 2; p * p <= n; p++)
        if (!composite[p]) {
            #pragma omp parallel for
            for (int m = p * p; m <= n; m += p)
                composite[m] = true;
        }
    int count = 0;
    #pragma omp parallel for reduction(+:count)
    for (int i = 2; i <= n; i++)
        if (!composite[i])
            count++;
    printf("%d\n", count);
    free(composite);
    return 0;
}
