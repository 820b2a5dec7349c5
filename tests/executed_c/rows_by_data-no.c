// Each task counts in a row of its own, at places that data say.
#include <stdio.h>
#include <stdlib.h>
#define TASKS 4
#define LENGTH 100
int main(void) {
  int rows[TASKS][16] = {{0}}, all[16] = {0}, *data = malloc(LENGTH * sizeof *data);
  for (int i = 0; i < LENGTH; i++) data[i] = rand() % 16;
#pragma omp parallel
#pragma omp single
  {
    for (int t = 0; t < TASKS; t++)
#pragma omp task firstprivate(t)
      for (int i = t; i < LENGTH; i += TASKS) rows[t][data[i]]++;
#pragma omp taskwait
    for (int t = 0; t < TASKS; t++)
      for (int b = 0; b < 16; b++) all[b] += rows[t][b];
  }
  printf("%d\n", all[0]);
  free(data);
  return 0;
}
