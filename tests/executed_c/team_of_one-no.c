int x, a[10];
int main(void) {
#pragma omp parallel num_threads(1)
    {
        x++;
#pragma omp for
        for (int i = 1; i < 10; i++)
            a[i] = a[i - 1];
#pragma omp barrier
        x++;
    }
#pragma omp parallel for if (0)
    for (int i = 1; i < 10; i++)
        a[i] = a[i - 1];
    return 0;
}
