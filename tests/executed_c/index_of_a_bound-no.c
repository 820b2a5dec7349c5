#include <stdlib.h>

/* The rows of a matrix, each by a task. The length of a row is a variable of the file, and bounds the loops too. */
int n;
double a[400];

static void fill(int row)
{
    for (int j = 0; j < n; j++)
        a[row * n + j] = j;
}

int main(void)
{
    n = 20;
    #pragma omp parallel
    #pragma omp single
    for (int i = 0; i < n; i++) {
        #pragma omp task
        fill(i);
    }
    return 0;
}
