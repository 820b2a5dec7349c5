/* The wait awaits the child, and not the grandchild. */
#include <stdint.h>
#include <stdio.h>
int main(void)
{
    uint64_t a[4] = {1, 2, 3, 4};
    uint64_t psum[2];
    uint64_t sum;
    #pragma omp parallel
    #pragma omp single
    {
        #pragma omp task
        {
            #pragma omp task
            psum[1] = a[2];
            psum[0] = a[0];
        }
        #pragma omp taskwait
        sum = psum[1];
    }
    printf("sum=%lu\n", sum);
    return 0;
}
