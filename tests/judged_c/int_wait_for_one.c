/* The wait is for x alone, and y is read before the second wait: a race. */
#include <stdio.h>
int x = 0, y = 2;
void foo(void)
{
    #pragma omp task depend(inout: x) shared(x)
    x++;
    #pragma omp task shared(y)
    y--;
    #pragma omp taskwait depend(in: x)
    printf("x=%d\n", x);
    printf("y=%d\n", y);
    #pragma omp taskwait
}
int main(void)
{
    #pragma omp parallel
    #pragma omp single
    foo();
    return 0;
}
