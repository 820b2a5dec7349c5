/* The last turn gives its value. */
#include <stdio.h>
int main(void)
{
    int x, a[10];
    #pragma omp parallel for lastprivate(x)
    for (int i = 0; i < 10; i++) {
        x = i * i;
        a[i] = x;
    }
    printf("%d %d\n", x, a[3]);
    return 0;
}
