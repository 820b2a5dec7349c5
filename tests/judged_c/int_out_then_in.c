/* The second task says `in` and writes; the two are ordered. */
#include <stdio.h>
int main(void)
{
    int i = 0;
    #pragma omp parallel
    #pragma omp single
    {
        #pragma omp task depend(out: i)
        i = 1;
        #pragma omp task depend(in: i)
        i = 2;
    }
    printf("i=%d\n", i);
    return 0;
}
