#include <omp.h>
int sum[64];
int main(void) {
#pragma omp parallel
    {
        int me = omp_get_thread_num();
        int all = omp_get_num_threads();
        for (int i = me; i < 100; i += all)
            sum[me] += i;
    }
    return 0;
}
