#include <stdlib.h>
int *all;
int main(void) {
  #pragma omp parallel
  {
    int *own = malloc(8 * sizeof(int));
    #pragma omp single
    all = own;
    own = all;
    #pragma omp for
    for (int i = 0; i < 8; i++)
      own[i % 2 ? i : 0] = i;
  }
  return 0;
}
