/* The wait for the two halves is missing. */
#include <stdio.h>

int fib(int n)
{
    int x, y;
    if (n < 2)
        return n;
#pragma omp task shared(x)
    x = fib(n - 1);
#pragma omp task shared(y)
    y = fib(n - 2);
    return x + y;
}

int main(void)
{
    int r = 0;
#pragma omp parallel
    {
#pragma omp single
        r = fib(8);
    }
    printf("%d\n", r);
    return 0;
}
