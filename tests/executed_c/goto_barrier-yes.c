#include <omp.h>
int a[2], done;
int main(void) {
#pragma omp parallel
    {
        int n = 0, me = omp_get_thread_num();
    more:
        a[me] += a[me] + n;
        if (++n < 3) goto more;
        if (n < 5) goto end;
#pragma omp barrier
    end:
        a[1 - me]++;
    }
    return 0;
}
