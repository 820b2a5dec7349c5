/* A table that nothing writes names one element twice. */
int order[4] = {2, 0, 3, 2};
int a[16];
int main(void)
{
    #pragma omp parallel
    #pragma omp single
    for (int i = 0; i < 4; i++) {
        #pragma omp task firstprivate(i)
        a[order[i]] = 1;
    }
    return 0;
}
