// Two tasks count in the bins of one struct, at places that data say; what lies beside the bins is of one task.
#include <stdio.h>
#include <stdlib.h>
struct worker {
  int bins[8];
  int done[2];
};
int main(void) {
  struct worker worker = {{0}};
  int *data = malloc(20 * sizeof *data);
  for (int i = 0; i < 20; i++) data[i] = rand() % 8;
#pragma omp parallel
#pragma omp single
  for (int t = 0; t < 2; t++) {
#pragma omp task firstprivate(t) shared(worker, data)
    {
      for (int i = t * 10; i < t * 10 + 10; i++) worker.bins[data[i]]++;
      worker.done[t] = 1;
    }
  }
  printf("%d\n", worker.bins[3]);
  free(data);
  return 0;
}
