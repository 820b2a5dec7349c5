/* What a constant decides is no branch: of these two assignments one is never reached, and the wait always is. */
#include <stdint.h>
#define DEBUG 0
#define SAFE 1
static uint64_t a[4];
int main(void)
{
    #pragma omp parallel
    #pragma omp single
    {
        #pragma omp task depend(out: a[0])
        a[0] = 1;
        if (DEBUG)
            a[0] = 2;
        if (SAFE) {
            #pragma omp taskwait
        }
        a[1] = a[0];
    }
    return 0;
}
