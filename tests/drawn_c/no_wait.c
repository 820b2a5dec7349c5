#include <stdio.h>
#include <omp.h>
int a[4];
int main() {
  #pragma omp parallel
  #pragma omp single
  {
    #pragma omp task depend(out: a[0])
    a[0] = 1;
    #pragma omp task depend(in: a[0])
    a[1] = a[0];
    #pragma omp task
    a[1] = a[1] + 1;
    #pragma omp taskwait
    printf("%d\n", a[1]);
  }
}
