/* A string is made before the tasks begin, and each of them prints it by a pointer. */
#include <stdio.h>
static char title[20];
static int a[4];
static void say(const char *name, int value) { printf("%s = %d\n", name, value); }
int main(void)
{
    snprintf(title, sizeof title, "%d values", 4);
    #pragma omp parallel
    #pragma omp single
    for (int i = 0; i < 4; i++) {
        #pragma omp task firstprivate(i)
        {
            a[i] = i;
            say(title, a[i]);
        }
    }
    return 0;
}
