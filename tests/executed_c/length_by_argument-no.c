#include <math.h>
#include <stdio.h>
#include <stdlib.h>

/* The command line may say another length: the text is judged with the one of the run. */
int main(int argc, char **argv)
{
    int n = argc > 1 ? atoi(argv[1]) : 8, rounds = 5;
    if (argc > 2)
        rounds = atoi(argv[2]);
    double *matrix = malloc(n * n * sizeof *matrix), *old = calloc(n, sizeof *old), *new = malloc(n * sizeof *new), far = 1;
    for (int i = 0; i < n; i++)
        for (int j = 0; j < n; j++)
            matrix[i * n + j] = i == j ? n : 1;
    for (int round = 0; round < rounds; round++) {
        far = 0;
        #pragma omp parallel for reduction(max: far)
        for (int i = 0; i < n; i++) {
            double sum = i;
            for (int j = 0; j < n; j++)
                if (j != i)
                    sum -= matrix[i * n + j] * old[j];
            new[i] = sum / matrix[i * n + i];
            double distance = fabs(new[i] - old[i]);
            if (distance > far)
                far = distance;
        }
        double *other = old;
        old = new;
        new = other;
    }
    printf("%g\n", far);
    free(matrix);
    free(old);
    free(new);
    return 0;
}
