int cells[8];

/* A section that is longer than its array. */
static void add(int n)
{
    #pragma omp taskgroup task_reduction(+: cells[0:n])
    {
        #pragma omp task in_reduction(+: cells[0:n])
        cells[0] += 1;
    }
}

int main(void)
{
    #pragma omp parallel
    #pragma omp single
    add(9);
    return 0;
}
