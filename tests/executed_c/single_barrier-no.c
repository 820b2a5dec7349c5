int x, y[64];
#include <omp.h>
int main(void) {
#pragma omp parallel
    {
#pragma omp single
        x = 1;
        y[omp_get_thread_num()] = x;
    }
    return 0;
}
