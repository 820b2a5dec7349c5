#include <stdlib.h>
int main(void) {
    double *a;
    if (posix_memalign((void **)&a, 64, 8 * sizeof(double)))
        return 1;
#pragma omp parallel for
    for (int i = 1; i < 8; i++)
        a[i] = a[i - 1];
    free(a);
    return 0;
}
