int x, y[4];
static void fill(void) {
#pragma omp single
    x = 1;
#pragma omp for
    for (int i = 0; i < 4; i++)
        y[i] = x + i;
}
int main(void) {
#pragma omp parallel
    {
        fill();
        fill();
    }
    return 0;
}
