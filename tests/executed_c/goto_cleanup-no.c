#include <stdlib.h>
int main(void) {
    int status = 1;
    int *a = malloc(8 * sizeof(int)), *b = 0;
    if (!a)
        goto end;
    b = malloc(8 * sizeof(int));
    if (!b)
        goto end;
#pragma omp parallel for
    for (int i = 0; i < 8; i++) {
        a[i] = i;
        b[i] = a[i];
    }
    status = 0;
end:
    free(b);
    free(a);
    return status;
}
