/* `diff` is shared, and no reduction. */
#include <stdio.h>
#define N 12
double u[N][N], v[N][N];

int main(void)
{
    double diff = 0;
    for (int i = 0; i < N; i++)
        u[i][0] = v[i][0] = 1;
    for (int it = 0; it < 3; it++) {
        diff = 0;
        #pragma omp parallel for
        for (int i = 1; i < N - 1; i++)
            for (int j = 1; j < N - 1; j++) {
                v[i][j] = 0.25 * (u[i - 1][j] + u[i + 1][j] + u[i][j - 1] + u[i][j + 1]);
                double d = v[i][j] - u[i][j];
                diff += d * d;
            }
        for (int i = 1; i < N - 1; i++)
            for (int j = 1; j < N - 1; j++)
                u[i][j] = v[i][j];
    }
    printf("%f\n", diff);
    return 0;
}
