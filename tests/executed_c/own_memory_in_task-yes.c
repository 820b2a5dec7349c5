#include <stdlib.h>
int main(void) {
  #pragma omp parallel
  {
    int *own = malloc(4 * sizeof(int));
    #pragma omp for
    for (int i = 0; i < 8; i++) {
      #pragma omp task
      own[0] = i;
    }
    free(own);
  }
  return 0;
}
