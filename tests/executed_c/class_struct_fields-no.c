/* Forces are computed from places, and places behind them. */
#include <stdio.h>
struct particle { double x, v, f; };
struct particle p[20];
int main(void)
{
    for (int step = 0; step < 2; step++) {
        #pragma omp parallel for
        for (int i = 0; i < 20; i++) {
            p[i].f = 0;
            for (int j = 0; j < 20; j++)
                if (i != j)
                    p[i].f += p[j].x - p[i].x;
        }
        #pragma omp parallel for
        for (int i = 0; i < 20; i++) {
            p[i].v += p[i].f;
            p[i].x += p[i].v;
        }
    }
    printf("%f\n", p[0].x);
    return 0;
}
