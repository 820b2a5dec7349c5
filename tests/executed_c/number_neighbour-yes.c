#include <omp.h>
int sum[65];
int main(void) {
#pragma omp parallel
    {
        int me = omp_get_thread_num();
        sum[me + 1] = me;
        sum[me] += 1;
    }
    return 0;
}
