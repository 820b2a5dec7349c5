// How many numbers there are is read, and the tasks add to one variable.
#include <stdio.h>
#include <stdlib.h>
int main(void) {
  int n, sum = 0;
  if (scanf("%d", &n) != 1) return 1;
  int *a = malloc(n * sizeof *a);
  for (int i = 0; i < n; i++) scanf("%d", &a[i]);
#pragma omp parallel
#pragma omp single
  for (int i = 0; i < n; i++)
#pragma omp task shared(sum) firstprivate(i)
    sum += a[i];
  printf("%d\n", sum);
  free(a);
  return 0;
}
