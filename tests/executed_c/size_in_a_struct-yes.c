#include <stdio.h>
#include <stdlib.h>
typedef struct { int rows, columns; double *cells; } matrix;

/* Each task also writes the first cell of the next row. */
int main(void)
{
    matrix *m = malloc(sizeof *m);
    m->rows = 8;
    m->columns = 8;
    m->cells = calloc(128, sizeof(double));
    #pragma omp parallel
    #pragma omp single
    for (int i = 0; i < m->rows; i++) {
        #pragma omp task
        for (int k = 0; k <= m->columns; k++)
            m->cells[i * m->columns + k] = k;
    }
    printf("%f\n", m->cells[0]);
    free(m->cells);
    free(m);
    return 0;
}
