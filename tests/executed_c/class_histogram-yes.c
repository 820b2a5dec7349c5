/* Turns count in one histogram. */
#include <stdio.h>
#define N 200

int main(void)
{
    int data[N], hist[10] = {0};
    for (int i = 0; i < N; i++)
        data[i] = (i * 31 + 7) % 100;
    #pragma omp parallel for
    for (int i = 0; i < N; i++)
        hist[data[i] / 10]++;
    for (int b = 0; b < 10; b++)
        printf("%d\n", hist[b]);
    return 0;
}
