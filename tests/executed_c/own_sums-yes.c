double a[40], total;
int main(void) {
#pragma omp parallel
    {
        double mine = 0;
#pragma omp for nowait
        for (int i = 0; i < 40; i++)
            mine += a[i];
        total += mine;
    }
    return 0;
}
