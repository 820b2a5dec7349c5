static int sum;

static void add(int *one)
{
    *one += 1;
    sum += 1;
}

int main(void)
{
    #pragma omp parallel
    #pragma omp single
    #pragma omp taskgroup task_reduction(+: sum)
    {
        #pragma omp task in_reduction(+: sum)
        add(&sum);
        #pragma omp task in_reduction(+: sum)
        add(&sum);
    }
    return sum;
}
