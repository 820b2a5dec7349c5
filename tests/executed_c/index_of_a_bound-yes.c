/* The same rows, but each task writes the first cell of the next row too. */
int n;
double a[440];

static void fill(int row)
{
    for (int j = 0; j <= n; j++)
        a[row * n + j] = j;
}

int main(void)
{
    n = 20;
    #pragma omp parallel
    #pragma omp single
    for (int i = 0; i < n; i++) {
        #pragma omp task
        fill(i);
    }
    return 0;
}
