#include <stdint.h>
/* Runtimes order items by the cells where they begin: nothing orders the two tasks. */
uint64_t a[4], x;
int main(void)
{
    #pragma omp parallel
    #pragma omp single
    {
        #pragma omp task depend(out: a[0:2])
        a[1] = 1;
        #pragma omp task depend(in: a[1:2])
        x = a[1];
    }
    return 0;
}
