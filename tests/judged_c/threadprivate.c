/* Each thread has a counter of its own, which isn't executed: that is told at the word, and not where the variable is declared. */
#include <stdio.h>
static int before, counter;
    #pragma omp  threadprivate(counter)
int main(void)
{
    #pragma omp parallel
    {
        counter++;
        #pragma omp single
        printf("%d\n", counter + before);
    }
    return 0;
}
