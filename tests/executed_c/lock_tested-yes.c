#include <omp.h>
int x;
omp_lock_t l;
int main(void) {
    omp_init_lock(&l);
#pragma omp parallel
#pragma omp single
    {
        for (int i = 0; i < 2; i++) {
#pragma omp task
            if (omp_test_lock(&l)) {
                x++;
                omp_unset_lock(&l);
            } else {
                x--;
            }
        }
    }
    omp_destroy_lock(&l);
    return x;
}
