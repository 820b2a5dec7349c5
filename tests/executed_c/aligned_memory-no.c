#include <stdlib.h>
int main(void) {
    double *a;
    void *b;
    if (posix_memalign((void **)&a, 64, 8 * sizeof(double)))
        return 1;
#pragma omp parallel for
    for (int i = 0; i < 8; i++)
        a[i] = i;
    free(a);
    return 0;
}
