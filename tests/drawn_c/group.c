#include <stdio.h>
int a[3];
int main(void) {
  #pragma omp parallel
  #pragma omp single
  {
    #pragma omp task depend(out: a[0])
    a[0] = 1;
    #pragma omp taskgroup
    {
      #pragma omp task depend(inout: a[0])
      {
        #pragma omp task
        a[1] = 2;
        a[0] += 1;
      }
      #pragma omp task depend(in: a[0])
      a[2] = a[0];
    }
    #pragma omp taskwait
    printf("%d %d %d\n", a[0], a[1], a[2]);
  }
}
