/* The first wait is for x, and the second one for both. */
#include <stdio.h>
int x = 0, y = 2;
void foo(void)
{
    #pragma omp task depend(inout: x) shared(x)
    x++;
    #pragma omp task shared(y)
    y--;
    #pragma omp taskwait depend(in: x)
    printf("x=%d\n", x);
    #pragma omp taskwait
    printf("y=%d\n", y);
}
int main(void)
{
    #pragma omp parallel
    #pragma omp single
    foo();
    return 0;
}
