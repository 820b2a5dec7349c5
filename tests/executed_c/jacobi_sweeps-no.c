double a[34], b[34];
int main(void) {
#pragma omp parallel
    for (int t = 0; t < 4; t++) {
#pragma omp for
        for (int i = 1; i < 33; i++)
            b[i] = (a[i - 1] + a[i + 1]) / 2;
#pragma omp for
        for (int i = 1; i < 33; i++)
            a[i] = b[i];
    }
    return 0;
}
