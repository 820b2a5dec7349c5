#include <stdlib.h>
#include <string.h>
struct sums { double of[4]; int count; };
double all[4];
int main(void) {
  struct sums *own;
  double *row;
  #pragma omp parallel private(own, row)
  {
    own = calloc(1, sizeof(struct sums));
    row = (double *)malloc(8 * sizeof(double));
    if (!own || row == NULL)
      exit(1);
    #pragma omp for nowait
    for (int i = 0; i < 16; i++) {
      memset(row, 0, 8 * sizeof(double));
      *(row + i % 8) = i;
      own->of[i % 4] += row[i % 8];
      own->count++;
    }
    #pragma omp critical
    for (int k = 0; k < 4; k++)
      all[k] += own->of[k];
    free(row);
    free(own);
  }
  return 0;
}
