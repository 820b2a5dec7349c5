/* the region begins behind what was done before it, and ends before what is done behind it */
int x, a[10];
int main(void) {
    x = 3;
#pragma omp parallel
    {
#pragma omp for
        for (int i = 0; i < 10; i++)
            a[i] = x;
    }
    x = a[9];
#pragma omp parallel for firstprivate(x)
    for (int i = 0; i < 10; i++)
        a[i] += x;
    x = 4;
    return 0;
}
