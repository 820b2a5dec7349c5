/* Tasks without clauses, and a wait between phases. */
#include <stdint.h>
#include <stdio.h>
#define N 4
static uint64_t a[N * N];
int main(void)
{
    #pragma omp parallel
    #pragma omp single
    for (int k = 0; k < N; k++) {
        a[k * N + k] = a[k * N + k] * 3 + 1;
        for (int j = k + 1; j < N; j++) {
            #pragma omp task
            a[k * N + j] += a[k * N + k];
        }
        for (int i = k + 1; i < N; i++) {
            #pragma omp task
            a[i * N + k] += a[k * N + k];
        }
        #pragma omp taskwait
        for (int i = k + 1; i < N; i++)
            for (int j = k + 1; j < N; j++) {
                #pragma omp task
                a[i * N + j] += a[i * N + k] * a[k * N + j];
            }
        #pragma omp taskwait
    }
    printf("%lu\n", a[N * N - 1]);
    return 0;
}
