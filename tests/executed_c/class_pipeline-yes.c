/* The last stage names the first one, and reads the second. */
#include <stdio.h>
#define N 6

int stage1[N], stage2[N], stage3[N];

int main(void)
{
    #pragma omp parallel
    #pragma omp single
    {
        for (int i = 0; i < N; i++) {
            #pragma omp task depend(out: stage1[i])
            stage1[i] = i;
            #pragma omp task depend(in: stage1[i]) depend(out: stage2[i])
            stage2[i] = 2 * stage1[i];
            #pragma omp task depend(in: stage1[i]) depend(out: stage3[i])
            stage3[i] = stage2[i] + 1;
        }
    }
    for (int i = 0; i < N; i++)
        printf("%d\n", stage3[i]);
    return 0;
}
