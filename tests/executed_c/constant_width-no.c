/* Nothing writes the width, so each task has an element of its own. */
int width = 4;
int a[16];
int main(void)
{
    #pragma omp parallel
    #pragma omp single
    for (int i = 0; i < width; i++)
        for (int j = 0; j < width; j++) {
            #pragma omp task firstprivate(i, j)
            a[i * width + j] = 1;
        }
    return 0;
}
