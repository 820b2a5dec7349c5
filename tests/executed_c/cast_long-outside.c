/* Two elements are written as one scalar. */
int a[8];
int main(void)
{
    #pragma omp parallel
    #pragma omp single
    {
        #pragma omp task
        a[1] = 1;
        #pragma omp task
        *(long *)&a[0] = 2;
    }
    return 0;
}
