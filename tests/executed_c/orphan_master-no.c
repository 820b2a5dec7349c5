#include <omp.h>
int x, y[2];
static void set(void) {
#pragma omp master
    x = 1;
#pragma omp barrier
}
int main(void) {
#pragma omp parallel
    {
        set();
        y[omp_get_thread_num()] = x;
    }
    return 0;
}
