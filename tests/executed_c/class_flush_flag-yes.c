/* A flag without atomics, with `flush` alone. */
#include <stdio.h>
int data, flag;
int main(void)
{
    #pragma omp parallel sections
    {
        #pragma omp section
        {
            data = 42;
            #pragma omp flush
            flag = 1;
        }
        #pragma omp section
        {
            while (!flag) {
                #pragma omp flush
            }
            printf("%d\n", data);
        }
    }
    return 0;
}
