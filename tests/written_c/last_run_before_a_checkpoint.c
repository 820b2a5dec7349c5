/* The last run of a session, as C with OpenMP: it prints what the run shows. */
#include <inttypes.h>
#include <stdint.h>
#include <stdio.h>

static void show(const uint64_t *cells, size_t count)
{
    for (size_t i = 0; i < count; i++)
        printf("%c%" PRIu64, i == 0 ? '[' : ',', cells[i]);
    printf("]");
}

int main(void)
{
    static uint64_t a[1] = {5};

    #pragma omp parallel
    #pragma omp single
    {
        #pragma omp taskwait
    }

    printf("[");
    show(&a[0], 1);
    printf("]\n");
    return 0;
}
