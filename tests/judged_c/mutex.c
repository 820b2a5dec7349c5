/* A kind of dependence that the language of the server hasn't. */
#include <stdint.h>
#include <stdio.h>
int main(void)
{
    uint64_t a, c;
    #pragma omp parallel
    #pragma omp single
    {
        #pragma omp task depend(out: a)
        a = 2;
        #pragma omp task depend(in: a) depend(mutexinoutset: c)
        c += a;
    }
    printf("%lu\n", c);
    return 0;
}
