/* By its step the iterator names the even elements, and an odd one is read. */
#include <stdio.h>
static void all(int n)
{
    int v[n];
    #pragma omp parallel
    #pragma omp single
    {
        for (int i = 0; i < n; i++)
            #pragma omp task depend(out: v[i])
            v[i] = i;
        #pragma omp task depend(iterator(it = 0:n:2), in: v[it])
        printf("%d\n", v[0] + v[3]);
    }
}
int main(void) { all(9); return 0; }
