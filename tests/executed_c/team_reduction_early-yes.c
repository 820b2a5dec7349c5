int a[20], seen[64];
#include <omp.h>
int main(void) {
    int s = 0;
#pragma omp parallel
    {
#pragma omp for reduction(+ : s) nowait
        for (int i = 0; i < 20; i++)
            s += a[i];
        seen[omp_get_thread_num()] = s;
    }
    return 0;
}
