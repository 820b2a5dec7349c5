/* What a function does is told where it stands. */
#include <stdint.h>
static uint64_t x;
void add(void)
{
    #pragma omp task depend(in: x)
    x += 2;
}
int main(void)
{
    #pragma omp parallel
    #pragma omp single
    {
        add();
        add();
    }
    return 0;
}
