/* What the turn of a loop decides is no branch: one task of four writes. */
#include <stdint.h>
static uint64_t a[4];
int main(void)
{
    #pragma omp parallel
    #pragma omp single
    for (int i = 0; i < 4; i++) {
        #pragma omp task
        {
            if (i == 0)
                a[0] = 1;
        }
    }
    return 0;
}
