/* The last run of a session, as C with OpenMP: it prints what the run shows. */
#include <inttypes.h>
#include <stdint.h>
#include <stdio.h>

static void show(const uint64_t *cells, size_t count)
{
    for (size_t i = 0; i < count; i++)
        printf("%c%" PRIu64, i == 0 ? '[' : ',', cells[i]);
    printf("]");
}

int main(void)
{
    static uint64_t a[3] = {1, 2, 3};

    #pragma omp parallel
    #pragma omp single
    {
        #pragma omp task depend(out: a[0])
        {
            a[0] = 7;
        }
        #pragma omp task depend(in: a[0]) depend(out: a[1])
        {
            a[1] = a[0] + 1;
        }
        #pragma omp taskwait depend(in: a[1])
        a[2] = a[1];
    }

    printf("[");
    show(&a[0], 3);
    printf("]\n");
    return 0;
}
