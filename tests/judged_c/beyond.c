/* In its last turn the loop writes behind the array. */
#include <stdint.h>
static uint64_t a[3];
int main(void)
{
    #pragma omp parallel
    #pragma omp single
    for (int i = 0; i <= 3; i++)
        a[i] = 1;
    return 0;
}
