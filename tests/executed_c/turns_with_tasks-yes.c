int sum[8], one;
int main(void) {
#pragma omp parallel
    {
#pragma omp for
        for (int i = 0; i < 8; i++) {
#pragma omp task
            sum[i] = one;
#pragma omp taskwait
        }
#pragma omp for nowait
        for (int i = 0; i < 8; i++) {
#pragma omp task
            sum[i] += 1;
        }
        one = sum[0];
    }
    return 0;
}
