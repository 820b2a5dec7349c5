#include <stdint.h>
uint64_t a[4], x;
int main(void)
{
    #pragma omp parallel
    #pragma omp single
    if (x == 1)
        x = 2;
    else
        for (int i = 0; i < 4; i++)
            a[i - 1] = 1;
    return 0;
}
