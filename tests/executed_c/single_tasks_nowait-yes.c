int a, c[8];
int main(void) {
#pragma omp parallel
    {
#pragma omp single nowait
        {
#pragma omp task
            a = 1;
        }
#pragma omp for
        for (int i = 0; i < 8; i++)
            c[i] = a;
    }
    return 0;
}
