int a[20];
int main(void) {
#pragma omp parallel
#pragma omp for
    for (int i = 0; i < 18; i++)
        a[i + 2] = a[i];
    return 0;
}
