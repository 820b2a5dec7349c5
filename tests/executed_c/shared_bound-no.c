/* tasks read `n`, which is known, and none of them is behind the end */
int main(void)
{
    int n = 8;
    int a[8];
    #pragma omp parallel shared(n, a)
    #pragma omp single
    for (int i = 0; i < n; i++) {
        #pragma omp task shared(n, a) firstprivate(i)
        {
            if (i > n)
                a[0] = 1;
            a[i] = 2;
        }
    }
    return 0;
}
