/* The last run of a session, as C with OpenMP: it prints what the run shows. */
#include <inttypes.h>
#include <stdint.h>
#include <stdio.h>

static uint64_t min(uint64_t one, uint64_t two)
{
    return one < two ? one : two;
}

static uint64_t max(uint64_t one, uint64_t two)
{
    return one < two ? two : one;
}

static void show(const uint64_t *cells, size_t count)
{
    for (size_t i = 0; i < count; i++)
        printf("%c%" PRIu64, i == 0 ? '[' : ',', cells[i]);
    printf("]");
}

int main(void)
{
    static uint64_t A_for[3] = {1, 2};

    #pragma omp parallel
    #pragma omp single
    {
        A_for[0] = min(1, max(A_for[1], 2));
    }

    printf("[");
    show(&A_for[0], 2);
    printf(",");
    show(&A_for[2], 1);
    printf("]\n");
    return 0;
}
