/* whatever `flag` is, the second write holds the lock of the first one */
int flag, s;
void fill(int *);
int main(void)
{
    fill(&flag);
    #pragma omp parallel
    #pragma omp single
    {
        #pragma omp task
        {
            #pragma omp critical
            s = 1;
        }
        if (flag) {
            #pragma omp critical
            s = 2;
        }
    }
    return 0;
}
