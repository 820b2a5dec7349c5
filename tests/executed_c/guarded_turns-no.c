#include <stdint.h>
/* Written out these are more statements than a program of the language has. */
uint64_t a[6667];
int main(void)
{
    #pragma omp parallel
    #pragma omp single
    for (int i = 0; i < 6667; i++)
        if (i > 0)
            a[i] = a[i - 1];
    return 0;
}
