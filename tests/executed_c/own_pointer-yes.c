/* each thread has a pointer of its own, to what all have */
int a[16];
int main(void) {
#pragma omp parallel
    {
        int *p = a;
#pragma omp for
        for (int i = 1; i < 16; i++)
            p[i] = p[i - 1];
    }
    return 0;
}
