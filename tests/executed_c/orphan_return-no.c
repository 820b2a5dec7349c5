#include <omp.h>
int x, y[2];
static void step(int k) {
    for (int i = 0; i < 3; i++) {
        if (i == 1) {
#pragma omp barrier
            if (k == 2) return;
        }
#pragma omp single
        x = i;
        y[omp_get_thread_num()] += x;
#pragma omp barrier
    }
}
int main(void) {
#pragma omp parallel
    { step(1); step(2); }
    return 0;
}
