int x, turns;
int main(void) {
#pragma omp parallel
#pragma omp single
    {
        int n = 0;
    again:
#pragma omp task firstprivate(n)
        x = n;
        n++;
        if (n < 3)
            goto again;
    }
    return x;
}
