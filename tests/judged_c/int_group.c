/* The group ends before the second task begins. */
#include <stdio.h>
int main(void)
{
    int result = 0;
    #pragma omp parallel
    {
        #pragma omp single
        {
            #pragma omp taskgroup
            {
                #pragma omp task
                {
                    result = 1;
                }
            }
            #pragma omp task
            {
                result = 2;
            }
        }
    }
    printf("result=%d\n", result);
    return 0;
}
