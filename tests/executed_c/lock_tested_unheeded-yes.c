#include <omp.h>
int x; omp_lock_t l;
int main(void) {
    omp_init_lock(&l);
#pragma omp parallel num_threads(2)
    {
        int got = omp_test_lock(&l);
        x++;
        if (got) omp_unset_lock(&l);
    }
    return x;
}
