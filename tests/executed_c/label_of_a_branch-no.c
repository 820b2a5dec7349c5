/* The label is a part of what the test guards. */
int x;
int main(void) {
    int turns = 0;
#pragma omp parallel num_threads(2)
    {
#pragma omp single
        {
            if (turns > 0)
            again:
#pragma omp task
                x = turns;
#pragma omp task
            x = 3;
        }
    }
    return x;
}
