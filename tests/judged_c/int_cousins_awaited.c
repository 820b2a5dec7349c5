/* Each of two tasks awaits its child, and their clauses order the two. */
#include <stdio.h>
int a = 0;
void foo(void)
{
    #pragma omp task depend(inout: a) shared(a)
    {
        #pragma omp task depend(inout: a) shared(a)
        a++;
        #pragma omp taskwait
    }
    #pragma omp task depend(inout: a) shared(a)
    {
        #pragma omp task depend(inout: a) shared(a)
        a++;
        #pragma omp taskwait
    }
    #pragma omp taskwait
    printf("a=%d\n", a);
}
int main(void)
{
    #pragma omp parallel
    #pragma omp single
    foo();
    return 0;
}
