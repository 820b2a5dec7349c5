#include <stdlib.h>
struct item { int kind; union { int number; double real; char text[8]; } as; };
struct item items[4];
int main(void) {
  #pragma omp parallel
  #pragma omp single
  for (int i = 0; i < 4; i++) {
    #pragma omp task firstprivate(i)
    items[i].as.real = i;
    #pragma omp task firstprivate(i)
    items[(i + 1) % 4].as.text[7] = 'x';
  }
  return 0;
}
