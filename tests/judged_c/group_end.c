/* The end of a taskgroup awaits the tasks of its tasks too. */
#include <stdint.h>
static uint64_t x, y;
int main(void)
{
    #pragma omp parallel
    #pragma omp single
    {
        #pragma omp taskgroup
        {
            #pragma omp task depend(out: x)
            {
                #pragma omp task depend(out: x)
                x = 1;
            }
        }
        y = x;
    }
    return 0;
}
