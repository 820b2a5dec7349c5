/* Twelve branches that are known have one way through them. */
#include <stdint.h>
static uint64_t a[16];
int main(void)
{
    #pragma omp parallel
    #pragma omp single
    for (int i = 0; i < 12; i++) {
        #pragma omp task
        {
            if (i > 0)
                a[i] = 1;
        }
    }
    return 0;
}
