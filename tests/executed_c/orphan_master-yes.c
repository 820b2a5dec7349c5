int x, y[2];
#include <omp.h>
static void set(void) {
#pragma omp master
    x = 1;
}
int main(void) {
#pragma omp parallel
    {
        set();
        y[omp_get_thread_num()] = x;
    }
    return 0;
}
