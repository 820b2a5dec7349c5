int a[8], b[8];
static void work(int n) {
    int last = 0;
#pragma omp for
    for (int i = 0; i < n; i++) {
        last = i;
        a[i] = last;
    }
#pragma omp for nowait
    for (int i = 0; i < n; i++)
        b[i] = a[n - 1 - i];
}
int main(void) {
#pragma omp parallel
    work(8);
    return 0;
}
