int a[8];
static int fill(void) {
#pragma omp for
    for (int i = 0; i < 8; i++)
        a[i] = i;
    return 1;
}
int main(void) {
    int all = 0;
#pragma omp parallel
    {
        int done = fill();
#pragma omp atomic
        all += done;
    }
    return all;
}
