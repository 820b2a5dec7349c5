int a[8], x;
static void fill(void) {
#pragma omp for
    for (int i = 0; i < 8; i++)
        a[i] = i;
#pragma omp barrier
#pragma omp single
    x = a[3];
#pragma omp master
    x++;
}
int main(void) {
    fill();
    return x;
}
