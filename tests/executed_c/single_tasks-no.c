int a, b, c[8];
int main(void) {
#pragma omp parallel
    {
#pragma omp single
        {
#pragma omp task
            a = 1;
#pragma omp task
            b = 2;
        }
#pragma omp for
        for (int i = 0; i < 8; i++)
            c[i] = a + b;
    }
    return 0;
}
