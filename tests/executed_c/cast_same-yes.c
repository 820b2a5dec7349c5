/* A cast to a type of the same size changes no cell. */
int a[8];
int main(void)
{
    unsigned *s = (unsigned *)a;
    #pragma omp parallel
    #pragma omp single
    {
        #pragma omp task
        a[1] = 1;
        #pragma omp task
        s[1] = 2;
    }
    return 0;
}
