#include <stdlib.h>
int a[8];
int main(void) {
  #pragma omp parallel
  {
    int *own = malloc(4 * sizeof(int));
    #pragma omp for
    for (int i = 0; i < 8; i++) {
      own[0] = i;
      a[i] = own[0];
    }
    free(own);
  }
  return a[7];
}
