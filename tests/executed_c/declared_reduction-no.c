#include <stdio.h>
typedef struct { double re, im; } number;
#pragma omp declare reduction(sum : number : omp_out.re += omp_in.re, omp_out.im += omp_in.im) initializer(omp_priv = (number){0, 0})
#pragma omp declare simd
static double twice(double x)
{
    return 2 * x;
}

/* Reductions that the program declares: of a loop, and of tasks. */
int main(void)
{
    number all = {0, 0}, some = {0, 0};
    #pragma omp parallel for reduction(sum: all)
    for (int i = 0; i < 100; i++) {
        all.re += i;
        all.im -= twice(i);
    }
    #pragma omp declare reduction(least : int : omp_out = omp_in < omp_out ? omp_in : omp_out) initializer(omp_priv = 1000)
    int low = 1000;
    #pragma omp parallel
    #pragma omp single
    #pragma omp taskgroup task_reduction(sum: some) task_reduction(least: low)
    for (int i = 0; i < 10; i++) {
        #pragma omp task in_reduction(sum: some) in_reduction(least: low)
        {
            some.re += i;
            if (i < low)
                low = i;
        }
    }
    printf("%f %f %f %d\n", all.re, all.im, some.re, low);
    return 0;
}
