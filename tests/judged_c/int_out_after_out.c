/* Both tasks say `out`, so the second one is the later one. */
#include <stdio.h>
int main(void)
{
    int i = 0;
    #pragma omp parallel
    #pragma omp single
    {
        #pragma omp task depend(out: i)
        {
            i = 1;
        }
        #pragma omp task depend(out: i)
        i = 2;
    }
    printf("i=%d\n", i);
    return 0;
}
