/* A line is read while a task may print the one before. */
#include <stdio.h>
static char line[100];
int main(void)
{
    #pragma omp parallel
    #pragma omp single
    for (int i = 0; i < 4; i++) {
        fgets(line, sizeof line, stdin);
        #pragma omp task
        printf("%s\n", line);
    }
    return 0;
}
