#define N 6
double a[N][N], b[N][N], c[N][N];
int main(void) {
    int i, j, k;
#pragma omp parallel private(i, j, k)
    {
#pragma omp for
        for (i = 0; i < N; i++)
            for (j = 0; j < N; j++)
                a[i][j] = b[i][j] = i + j;
#pragma omp for
        for (i = 0; i < N; i++)
            for (j = 0; j < N; j++) {
                double sum = 0;
                for (k = 0; k < N; k++)
                    sum += a[i][k] * b[k][j];
                c[i][j] = sum;
            }
    }
    return 0;
}
