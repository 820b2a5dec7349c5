/* where `flag` is 0 and `other` isn't, `s` is written twice; that `p` is null in this run is no error on that way */
#include <stdio.h>
int flag, other, s;
int *p;
void fill(int *, int *);
int main(void)
{
    fill(&flag, &other);
    #pragma omp parallel
    #pragma omp single
    {
        if (getchar() == 'x') {
            #pragma omp taskwait
        }
        #pragma omp task
        s = 1;
        if (flag)
            *p = 2;
        if (other)
            s = 3;
    }
    return 0;
}
