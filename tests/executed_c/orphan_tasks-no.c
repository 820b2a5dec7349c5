int a[16];
static void sort(int *first, int count) {
    for (int i = 0; i < count; i++) {
#pragma omp task
        first[i] = i;
    }
}
static void start(void) {
#pragma omp single
    {
        sort(a, 8);
        sort(a + 8, 8);
    }
}
int main(void) {
    int sum = 0;
#pragma omp parallel
    start();
    for (int i = 0; i < 16; i++)
        sum += a[i];
    return sum;
}
