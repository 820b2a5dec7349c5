int x, y[64];
#include <omp.h>
int main(void) {
#pragma omp parallel
    {
#pragma omp master
        x = 1;
#pragma omp barrier
        y[omp_get_thread_num()] = x;
    }
    return 0;
}
