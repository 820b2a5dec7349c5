/* What a variable has is looked at as scalars of another size. */
int a[8];
int main(void)
{
    short *s = (short *)a;
    #pragma omp parallel
    #pragma omp single
    {
        #pragma omp task
        a[1] = 1;
        #pragma omp task
        s[2] = 2;
    }
    return 0;
}
