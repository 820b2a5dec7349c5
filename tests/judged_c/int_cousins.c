/* Children of two tasks are no siblings, so their clauses don't order them: a race. */
#include <stdio.h>
int a = 0;
void foo(void)
{
    #pragma omp task depend(inout: a) shared(a)
    {
        #pragma omp task depend(inout: a) shared(a)
        a++;
    }
    #pragma omp task depend(inout: a) shared(a)
    {
        #pragma omp task depend(inout: a) shared(a)
        a++;
    }
    #pragma omp taskwait
    printf("a=%d\n", a);
}
int main(void)
{
    #pragma omp parallel
    #pragma omp single
    foo();
    return 0;
}
