int a[8], b[8];
static void work(int n) {
#pragma omp for nowait
    for (int i = 0; i < n; i++)
        a[i] = i;
#pragma omp for
    for (int i = 0; i < n; i++)
        b[i] = a[n - 1 - i];
}
int main(void) {
#pragma omp parallel
    work(8);
    return 0;
}
