/* The range of the iterator ends before the last element, which is read all the same. */
#include <stdio.h>
static void all(int n)
{
    int v[n];
    #pragma omp parallel
    #pragma omp single
    {
        for (int i = 0; i < n; i++)
            #pragma omp task depend(out: v[i])
            v[i] = i;
        #pragma omp task depend(iterator(it = 0:n - 1), in: v[it])
        printf("%d\n", v[n - 1]);
    }
}
int main(void) { all(8); return 0; }
