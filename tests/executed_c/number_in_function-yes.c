#include <omp.h>
int sum[65];
static void add(int k) { sum[omp_get_thread_num() + k] += k; }
int main(void) {
#pragma omp parallel
    {
        add(0);
        add(1);
    }
    return 0;
}
