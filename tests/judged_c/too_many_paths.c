/* Where two of the numbers are 7 two tasks race. There are 2,048 ways, so the run alone is judged, and in it none is 7. */
#include <stdint.h>
static uint64_t a[16], x;
int main(void)
{
    #pragma omp parallel
    #pragma omp single
    for (int i = 0; i < 11; i++) {
        #pragma omp task
        {
            if (a[i] == 7)
                x++;
        }
    }
    return 0;
}
