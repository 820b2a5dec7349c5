#include <stdint.h>
uint64_t a[4], x, y;
int main(void)
{
    #pragma omp parallel
    #pragma omp single
    x = a[y % 0];
    return 0;
}
