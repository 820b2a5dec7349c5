/* In a test of #if a number without a sign takes the sign from the other one. */
int x;
int main(void)
{
    #pragma omp parallel
    #pragma omp single
    {
        #pragma omp task
        x = 1;
#if -1 > 0u
        #pragma omp task
        x = 2;
#endif
    }
    return 0;
}
