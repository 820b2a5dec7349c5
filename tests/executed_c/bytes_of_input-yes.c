/* The second half is read while a task may add up the first one and a number more. */
#include <stdio.h>
static double block[16], sum;
int main(void)
{
    #pragma omp parallel
    #pragma omp single
    {
        fread(block, sizeof(double), 8, stdin);
        #pragma omp task
        for (int i = 0; i <= 8; i++)
            sum += block[i];
        fread(block + 8, sizeof(double), 8, stdin);
        #pragma omp taskwait
    }
    printf("%f\n", sum);
    return 0;
}
