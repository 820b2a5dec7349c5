/* A team within a team. */
#include <stdio.h>
#include <omp.h>
int a[4][4];
int main(void)
{
    omp_set_nested(1);
    #pragma omp parallel for num_threads(2)
    for (int i = 0; i < 4; i++) {
        #pragma omp parallel for num_threads(2)
        for (int j = 0; j < 4; j++)
            a[i][j] = i * j;
    }
    printf("%d\n", a[3][3]);
    return 0;
}
