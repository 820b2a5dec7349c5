/* Ten tasks count one variable up, and nothing orders them: a race. */
#include <stdio.h>
int main(void)
{
    int var = 0;
    #pragma omp parallel
    #pragma omp single
    for (int i = 0; i < 10; i++) {
        #pragma omp task shared(var)
        {
            var++;
        }
    }
    printf("%d\n", var);
    return 0;
}
