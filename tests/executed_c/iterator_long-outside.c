/* The iterator has more numbers than are executed. */
#include <stdio.h>
static void all(int n)
{
    int v[n];
    #pragma omp parallel
    #pragma omp single
    {
        #pragma omp task depend(iterator(it = 0:n), out: v[it])
        v[0] = 1;
        #pragma omp task depend(in: v[0])
        printf("%d\n", v[0]);
    }
}
int main(void) { all(129); return 0; }
