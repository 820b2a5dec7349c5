#include <omp.h>
#include <stdio.h>
#include <stdlib.h>

/* All tasks add to one sum. */
int main(void)
{
    double sum = 0;
    #pragma omp parallel
    #pragma omp single
    {
        int threads = omp_get_num_threads();
        for (int t = 0; t < threads; t++) {
            #pragma omp task shared(sum)
            sum += t;
        }
    }
    printf("%f\n", sum);
    return 0;
}
