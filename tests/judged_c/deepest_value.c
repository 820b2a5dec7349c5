/* A value of depth 24, the language's limit, in the words of `omptask c`: each comparison is the right side of the one before. */
#include <stdint.h>
static uint64_t min(uint64_t one, uint64_t two)
{
    return one < two ? one : two;
}
int main(void)
{
    static uint64_t a[2] = {1, 2};
    #pragma omp parallel
    #pragma omp single
    {
        #pragma omp task depend(inout: a[0]) depend(in: a[1])
        a[0] = min(a[0], a[0] < (uint64_t)(a[0] < (uint64_t)(a[0] < (uint64_t)(a[0] < (uint64_t)(a[0] < (uint64_t)(a[0] < (uint64_t)(a[0] < (uint64_t)(a[0] < (uint64_t)(a[0] < (uint64_t)(a[0] < (uint64_t)(a[0] < (uint64_t)(a[0] < (uint64_t)(a[0] < (uint64_t)(a[0] < (uint64_t)(a[0] < (uint64_t)(a[0] < (uint64_t)(a[0] < (uint64_t)(a[0] < (uint64_t)(a[0] < (uint64_t)(a[0] < (uint64_t)(a[0] < (uint64_t)(a[0] < a[1]))))))))))))))))))))));
        #pragma omp task depend(inout: a[0]) depend(in: a[1])
        a[0] = (uint64_t)(a[0] < (uint64_t)(a[0] < (uint64_t)(a[0] < (uint64_t)(a[0] < (uint64_t)(a[0] < (uint64_t)(a[0] < (uint64_t)(a[0] < (uint64_t)(a[0] < (uint64_t)(a[0] < (uint64_t)(a[0] < (uint64_t)(a[0] < (uint64_t)(a[0] < (uint64_t)(a[0] < (uint64_t)(a[0] < (uint64_t)(a[0] < (uint64_t)(a[0] < (uint64_t)(a[0] < (uint64_t)(a[0] < (uint64_t)(a[0] < (uint64_t)(a[0] < (uint64_t)(a[0] < (uint64_t)(a[0] < a[1])))))))))))))))))))))) + 1;
    }
    return 0;
}
