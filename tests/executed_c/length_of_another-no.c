#include <stdio.h>
static const struct { const char *name; int more; } ways[] = { {"one", 1}, {"two", 2}, {"three", 3} };
enum { WAYS = sizeof ways / sizeof ways[0] };

/* An array has as many elements as another one, whose length its initial value says. */
int result[WAYS], next[sizeof ways / sizeof *ways + 1];

int main(void)
{
    #pragma omp parallel
    #pragma omp single
    for (size_t k = 0; k < WAYS; ++k) {
        #pragma omp task
        {
            result[k] = ways[k].more;
            next[k + 1] = result[k];
        }
    }
    printf("%d %d\n", result[2], next[3]);
    return 0;
}
