/* A reduction over a section of an array. */
#include <stdio.h>
int main(void)
{
    int h[4] = {0};
    #pragma omp parallel for reduction(+: h[:4])
    for (int i = 0; i < 100; i++)
        h[i % 4]++;
    printf("%d\n", h[0]);
    return 0;
}
