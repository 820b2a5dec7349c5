// A command without a number ends at once; with one the tasks add to one variable.
#include <stdio.h>
#include <stdlib.h>
int main(int argc, char **argv) {
  if (argc < 2) {
    fprintf(stderr, "usage: %s n\n", argv[0]);
    return 1;
  }
  int n = atoi(argv[1]), sum = 0;
  int *a = malloc(n * sizeof *a);
  for (int i = 0; i < n; i++) a[i] = i;
#pragma omp parallel
#pragma omp single
  for (int i = 0; i < n; i++)
#pragma omp task shared(sum) firstprivate(i)
    sum += a[i];
  printf("%d\n", sum);
  free(a);
  return 0;
}
