/* Rows below the pivot, side by side. */
#include <stdio.h>
#include <math.h>
#define N 8
double a[N][N];
int main(void)
{
    for (int i = 0; i < N; i++)
        for (int j = 0; j < N; j++)
            a[i][j] = i == j ? 10 : fabs(i - j);
    for (int k = 0; k < N - 1; k++) {
        #pragma omp parallel for shared(a, k)
        for (int i = k + 1; i < N; i++) {
            a[i][k] /= a[k][k];
            for (int j = k + 1; j < N; j++)
                a[i][j] -= a[i][k] * a[k][j];
        }
    }
    printf("%f\n", a[N - 1][N - 1]);
    return 0;
}
