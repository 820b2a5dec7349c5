/* What a reduction leaves is memory. */
int flag = 0;
int x;
int main(void)
{
    #pragma omp parallel
    #pragma omp single
    {
        #pragma omp taskgroup task_reduction(+: flag)
        {
            #pragma omp task in_reduction(+: flag)
            flag += 0;
        }
        #pragma omp task
        x = 1;
        if (flag) {
            #pragma omp task
            x = 2;
        }
    }
    return 0;
}
