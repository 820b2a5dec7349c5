/* A sparse matrix by rows: where they begin stands in memory, and bounds the loops. */
int start[5];
int column[8];
double value[8], x[4], y[4];

int main(void)
{
    for (int i = 0; i < 5; i++)
        start[i] = 2 * i;
    for (int k = 0; k < 8; k++)
        column[k] = k % 4;
    #pragma omp parallel
    #pragma omp single
    for (int i = 0; i < 4; i++) {
        #pragma omp task
        for (int k = start[i]; k < start[i + 1]; k++) {
            value[k] *= 2;
            y[i] += value[k] * x[column[k]];
        }
    }
    return 0;
}
