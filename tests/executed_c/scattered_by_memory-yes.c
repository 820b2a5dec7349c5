/* Where each task writes stands in memory, and bounds nothing: two of them may write the same cell. */
int target[4];
double y[4];

int main(void)
{
    for (int i = 0; i < 4; i++)
        target[i] = i;
    #pragma omp parallel
    #pragma omp single
    for (int i = 0; i < 4; i++) {
        #pragma omp task
        y[target[i]] += 1;
    }
    return 0;
}
