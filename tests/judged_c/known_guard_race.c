/* The last turn reads a[3], which the task that the third one creates writes: nothing orders the two. */
#include <stdint.h>
static uint64_t a[4], b[4];
int main(void)
{
    #pragma omp parallel
    #pragma omp single
    {
        for (int i = 0; i < 4; i++) {
            if (i < 3) {
                #pragma omp task depend(out: a[i + 1])
                a[i + 1] = 1;
            } else {
                b[0] = a[i];
            }
        }
    }
    return 0;
}
