/* `schedule(static)` says that a turn of both loops is of one thread */
int a[10], b[10];
int main(void) {
#pragma omp parallel
    {
#pragma omp for schedule(static) nowait
        for (int i = 0; i < 10; i++)
            a[i] = i;
#pragma omp for schedule(static) nowait
        for (int i = 0; i < 10; i++)
            b[i] = a[i];
    }
    return 0;
}
