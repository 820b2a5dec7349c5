/* The two halves are awaited. */
#include <stdio.h>
#include <stdlib.h>
#include <omp.h>

int fib(int n)
{
    int x, y;
    if (n < 2)
        return n;
#pragma omp task shared(x) firstprivate(n) if (n > 4)
    x = fib(n - 1);
#pragma omp task shared(y) firstprivate(n) if (n > 4)
    y = fib(n - 2);
#pragma omp taskwait
    return x + y;
}

int main(int argc, char **argv)
{
    int n = argc > 1 ? atoi(argv[1]) : 12;
    int result;
    double start = omp_get_wtime();
#pragma omp parallel
#pragma omp single
    result = fib(n);
    double end = omp_get_wtime();
    printf("fib(%d) = %d in %f s\n", n, result, end - start);
    return 0;
}
