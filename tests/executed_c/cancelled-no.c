#include <stdio.h>

/* Cancellation isn't activated unless the environment says so. */
static int find(const int *values, int n, int wanted)
{
    int where = -1;
    #pragma omp parallel
    #pragma omp single
    #pragma omp taskgroup
    for (int i = 0; i < n; i += 10) {
        #pragma omp task shared(where)
        for (int j = i; j < i + 10; j++) {
            #pragma omp cancellation point taskgroup
            if (values[j] == wanted) {
                #pragma omp atomic write
                where = j;
                #pragma omp cancel taskgroup
            }
        }
    }
    return where;
}

int main(void)
{
    int values[100];
    for (int i = 0; i < 100; i++)
        values[i] = 2 * i;
    printf("%d\n", find(values, 100, 42));
    return 0;
}
