int a[10], b[10];
int main(void) {
#pragma omp parallel
    {
#pragma omp for nowait
        for (int i = 0; i < 10; i++)
            a[i] = i;
#pragma omp for nowait
        for (int i = 0; i < 10; i++)
            b[i] = i;
    }
    return a[0] + b[0];
}
