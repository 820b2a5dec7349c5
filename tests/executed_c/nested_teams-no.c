/* the inner team has one thread */
#include <omp.h>
int a[64];
static void own(int k) {
#pragma omp parallel
    a[k] += 1;
}
int main(void) {
#pragma omp parallel
    {
        int mine = 0;
#pragma omp parallel
        {
            mine++;
#pragma omp barrier
            mine++;
        }
        own(omp_get_thread_num());
    }
    return 0;
}
