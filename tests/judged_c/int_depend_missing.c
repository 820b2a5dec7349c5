/* Two tasks write one variable, and nothing orders them: a race. */
#include <stdio.h>
int main(void)
{
    int i = 0;
    #pragma omp parallel
    #pragma omp single
    {
        #pragma omp task
        i = 1;
        #pragma omp task
        i = 2;
    }
    printf("i=%d\n", i);
    return 0;
}
