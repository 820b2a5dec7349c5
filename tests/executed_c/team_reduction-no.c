#include <stdio.h>
int a[20];
int main(void) {
    int s = 0;
#pragma omp parallel
    {
#pragma omp for
        for (int i = 0; i < 20; i++)
            a[i] = i;
#pragma omp for reduction(+ : s)
        for (int i = 0; i < 20; i++)
            s += a[i];
#pragma omp single
        printf("%d\n", s);
    }
    return 0;
}
