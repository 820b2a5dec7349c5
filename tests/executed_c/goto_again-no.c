int a[3];
int main(void) {
#pragma omp parallel
#pragma omp single
    {
        int n = 0;
    again:
#pragma omp task firstprivate(n)
        a[n] = n;
        n++;
        if (n < 3)
            goto again;
    }
    return a[0];
}
