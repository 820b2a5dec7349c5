/* A string is made anew while a task may print it by a pointer. */
#include <stdio.h>
static char title[20];
static void say(const char *name) { printf("%s\n", name); }
int main(void)
{
    #pragma omp parallel
    #pragma omp single
    for (int i = 0; i < 4; i++) {
        snprintf(title, sizeof title, "%d", i);
        #pragma omp task
        say(title);
    }
    return 0;
}
