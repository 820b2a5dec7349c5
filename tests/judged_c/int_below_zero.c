/* n is below zero, so there is a task, and what it writes is read beside it: a race. */
#include <stdio.h>
static int n = -1, a[2];
int main(void)
{
    #pragma omp parallel
    #pragma omp single
    {
        if (n < 0) {
            #pragma omp task depend(in: n) depend(out: a[0])
            a[0] = n;
        }
        a[1] = a[0] + 1;
    }
    printf("%d\n", a[1]);
    return 0;
}
