int main(void) {
    int *a = (int[]){1, 2, 3};
#pragma omp parallel
#pragma omp single
    {
#pragma omp task
        a[1] = 4;
#pragma omp task
        a[a[0]] = 5;
    }
    return a[1];
}
