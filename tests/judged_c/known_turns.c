/* Turns decide what tasks do, which tasks there are, and where they are awaited. */
#include <stdint.h>
static uint64_t a[4], x;
int main(void)
{
    #pragma omp parallel
    #pragma omp single
    {
        for (int i = 0; i < 4; i++) {
            #pragma omp task depend(inout: a[0])
            {
                if (i > 0)
                    a[0] += a[i];
                else
                    a[0] = 1;
            }
        }
        #pragma omp taskwait
        for (int i = 0; i < 4; i++) {
            if (i != 0) {
                #pragma omp task depend(out: a[i])
                a[i] = 1;
            }
        }
        a[0] = 2;
        #pragma omp taskwait
        for (int i = 0; i < 4; i++) {
            if (i > 0) {
                #pragma omp taskwait
            }
            #pragma omp task depend(inout: x)
            x += 1;
        }
    }
    return 0;
}
