// Each task has a struct of its own in an array, and counts in its bins, at places that data say.
#include <stdio.h>
#include <stdlib.h>
struct worker {
  long sum;
  int bins[8];
  int done;
};
int main(int argc, char **argv) {
  struct worker workers[3] = {0};
  int data[30];
  for (int i = 0; i < 30; i++) data[i] = (i * 7 + argc) % 8;
#pragma omp parallel
#pragma omp single
  for (int t = 0; t < 3; t++) {
#pragma omp task firstprivate(t) shared(workers, data)
    {
      for (int i = t * 10; i < t * 10 + 10; i++) {
        workers[t].bins[data[i]]++;
        workers[t].sum += data[i];
      }
      workers[t].done = 1;
    }
  }
  printf("%ld %d %s\n", workers[0].sum, workers[1].bins[3], argv[0]);
  return 0;
}
