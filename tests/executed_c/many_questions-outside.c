/* nothing is known of thirteen conditions, and a task is created behind each: more ways than are judged */
#include <stdio.h>
int a[13];
int main(void)
{
    #pragma omp parallel
    #pragma omp single
    for (int i = 0; i < 13; i++) {
        if (getchar() == 'x') {
            #pragma omp task firstprivate(i)
            a[i] = i;
        }
    }
    return 0;
}
