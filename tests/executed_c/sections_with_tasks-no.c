int a[4], b[4], c[4];
int main(void) {
#pragma omp parallel
    {
#pragma omp sections
        {
#pragma omp section
            {
#pragma omp task
                a[0] = 1;
#pragma omp taskwait
                a[1] = a[0];
            }
#pragma omp section
            {
#pragma omp task
                b[0] = 1;
            }
        }
#pragma omp for
        for (int i = 0; i < 4; i++)
            c[i] = a[i] + b[i];
    }
    return 0;
}
