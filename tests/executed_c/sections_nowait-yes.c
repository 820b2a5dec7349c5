int a, b, c[64];
#include <omp.h>
int main(void) {
#pragma omp parallel
    {
#pragma omp sections nowait
        {
#pragma omp section
            a = 1;
#pragma omp section
            b = 1;
        }
        c[omp_get_thread_num()] = a;
    }
    return 0;
}
