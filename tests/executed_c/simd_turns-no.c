double a[32], b[32];
int main(void) {
#pragma omp parallel for simd
    for (int i = 0; i < 32; i++)
        a[i] = b[i] * 2;
#pragma omp parallel
    {
#pragma omp for simd
        for (int i = 0; i < 32; i++)
            b[i] = a[i];
    }
    return 0;
}
