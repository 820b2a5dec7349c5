#include <stdio.h>

/* The condition is evaluated. */
int main(void)
{
    int found = 0;
    #pragma omp parallel
    #pragma omp single
    #pragma omp taskgroup
    {
        #pragma omp task shared(found)
        found = 1;
        #pragma omp task shared(found)
        {
            #pragma omp cancel taskgroup if(found)
        }
    }
    printf("%d\n", found);
    return 0;
}
