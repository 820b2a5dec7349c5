/* Two tasks make their strings in one buffer. */
#include <stdio.h>
int main(void)
{
    char buffer[40];
    #pragma omp parallel
    #pragma omp single
    {
        #pragma omp task shared(buffer)
        { sprintf(buffer, "one %d", 1); puts(buffer); }
        #pragma omp task shared(buffer)
        { sprintf(buffer, "two %d", 2); puts(buffer); }
        #pragma omp taskwait
    }
    return 0;
}
