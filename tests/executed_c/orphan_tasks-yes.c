int a[16];
static void sort(int *first, int count) {
    for (int i = 0; i < count; i++) {
#pragma omp task
        first[i] = i;
    }
}
static void start(void) {
#pragma omp single
    {
        sort(a, 9);
        sort(a + 8, 8);
    }
}
int main(void) {
#pragma omp parallel
    start();
    return a[0];
}
