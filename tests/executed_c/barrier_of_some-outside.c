#include <omp.h>
int x;
int main(void) {
#pragma omp parallel
    {
        if (omp_get_thread_num() == 0) {
#pragma omp barrier
            x = 1;
        }
    }
    return 0;
}
