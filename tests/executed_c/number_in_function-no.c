#include <omp.h>
int sum[64];
static void add(int k) { sum[omp_get_thread_num()] += k; }
int main(void) {
#pragma omp parallel
    {
        add(1);
#pragma omp barrier
        add(2);
    }
    return 0;
}
