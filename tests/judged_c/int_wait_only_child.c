/* The wait awaits the child, and not the grandchild: a race. */
#include <stdio.h>
int main(void)
{
    int a[4] = {1, 2, 3, 4}, psum[2], sum = 0;
    #pragma omp parallel num_threads(2)
    {
        #pragma omp single
        {
            #pragma omp task
            {
                #pragma omp task
                {
                    psum[1] = a[2] + a[3];
                }
                psum[0] = a[0] + a[1];
            }
            #pragma omp taskwait
            sum = psum[1] + psum[0];
        }
    }
    printf("sum = %d\n", sum);
    return 0;
}
