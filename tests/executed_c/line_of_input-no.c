/* A line is read before the tasks begin, and each of them prints it. */
#include <stdio.h>
static char line[100];
static int a[4];
int main(void)
{
    fgets(line, sizeof line, stdin);
    #pragma omp parallel
    #pragma omp single
    for (int i = 0; i < 4; i++) {
        #pragma omp task firstprivate(i)
        {
            a[i] = i;
            printf("%s %d\n", line, a[i]);
        }
    }
    return 0;
}
