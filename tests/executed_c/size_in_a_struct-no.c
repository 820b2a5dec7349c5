#include <stdio.h>
#include <stdlib.h>
typedef struct { int rows, columns; double *cells; } matrix;

/* Indexes are made of numbers that stand in structs: of the file, allocated, and that a function gives. */
matrix first;

static matrix made(int rows, int columns)
{
    matrix m = { .rows = rows, .columns = columns, .cells = calloc((size_t)rows * columns, sizeof(double)) };
    return m;
}

static void fill(const matrix *from, matrix *to, int row)
{
    for (int k = 0; k < from->columns; k++)
        to->cells[row * to->columns + k] = from->cells[row * from->columns + k] + 1;
}

int main(void)
{
    matrix second = made(8, 8), *third = malloc(sizeof *third);
    *third = made(8, 8);
    first.rows = first.columns = 8;
    first.cells = calloc(64, sizeof(double));
    #pragma omp parallel
    #pragma omp single
    {
        for (int i = 0; i < first.rows; i++) {
            #pragma omp task
            first.cells[i * first.columns] = i;
        }
        #pragma omp taskwait
        for (int i = 0; i < second.rows; i++) {
            #pragma omp task
            fill(&first, &second, i);
        }
        #pragma omp taskwait
        for (int i = 0; i < third->rows; i++) {
            #pragma omp task
            fill(&second, third, i);
        }
    }
    printf("%f\n", third->cells[0]);
    free(first.cells);
    free(second.cells);
    free(third->cells);
    free(third);
    return 0;
}
