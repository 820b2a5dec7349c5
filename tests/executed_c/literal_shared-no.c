static int *table = (int[]){0, 1, 2};
int main(void) {
#pragma omp parallel
#pragma omp single
    {
#pragma omp task
        table[1] = 4;
#pragma omp task
        table[0] = 5;
    }
    return table[1];
}
