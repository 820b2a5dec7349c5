/* A wavefront over 4 by 4 cells. */
#include <stdint.h>
#include <stdio.h>
#define N 4
static uint64_t m[N * N] = {1};
int main(void)
{
    #pragma omp parallel
    #pragma omp single
    for (int i = 1; i < N; i++)
        for (int j = 1; j < N; j++) {
            #pragma omp task depend(in: m[(i - 1) * N + j], m[i * N + j - 1]) depend(out: m[i * N + j])
            m[i * N + j] = m[(i - 1) * N + j] + m[i * N + j - 1];
        }
    printf("%lu\n", m[N * N - 1]);
    return 0;
}
