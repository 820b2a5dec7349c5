static void add(int *sum)
{
    *sum += 1;
}

int main(void)
{
    int sum = 0;
    #pragma omp parallel
    #pragma omp single
    #pragma omp taskgroup task_reduction(+: sum)
    {
        #pragma omp task in_reduction(+: sum)
        {
            #pragma omp task shared(sum)
            add(&sum);
            #pragma omp task shared(sum)
            add(&sum);
            #pragma omp taskwait
        }
        #pragma omp task in_reduction(+: sum)
        add(&sum);
    }
    return sum;
}
