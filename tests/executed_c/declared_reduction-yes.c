#include <stdio.h>
typedef struct { int most, where; } best;
#pragma omp declare reduction(best : best : omp_out = omp_in.most > omp_out.most ? omp_in : omp_out)

/* A thread looks at the result before the next barrier. */
int main(void)
{
    best found = {-1, -1};
    int seen = 0;
    #pragma omp parallel
    {
        #pragma omp for nowait reduction(best: found)
        for (int i = 0; i < 10; i++)
            if (i % 7 > found.most) {
                found.most = i % 7;
                found.where = i;
            }
        #pragma omp single
        seen = found.where;
    }
    printf("%d\n", seen);
    return 0;
}
