/* the two rows change places in each sweep, by a number that each thread counts for itself */
int main(void) {
    double a[2][34];
    int n = 32;
    for (int i = 0; i < 34; i++)
        a[0][i] = a[1][i] = i;
#pragma omp parallel
    {
        int from = 0;
        for (int t = 0; t < 3; t++) {
#pragma omp for
            for (int i = 1; i <= n; i++)
                a[1 - from][i] = (a[from][i - 1] + a[from][i + 1]) / 2;
            from = 1 - from;
        }
    }
    return 0;
}
