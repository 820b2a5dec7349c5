#include <stdint.h>
uint64_t a[4] = {1, 2, 3, 4};
int main(void)
{
    #pragma omp parallel
    #pragma omp single
    if (1) if (1) if (1) if (1) if (1) if (1) if (1) if (1) if (1) if (1) if (1) if (1) if (1) if (1)
    #pragma omp task
    {
        a[2] = 1;
    }
    a[2] = 2;
    return 0;
}
