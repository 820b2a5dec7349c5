/* where `flag` isn't 0 the second write holds no lock */
int flag, s;
void fill(int *);
int main(void)
{
    fill(&flag);
    #pragma omp parallel
    #pragma omp single
    {
        #pragma omp task
        {
            #pragma omp critical
            s = 1;
        }
        if (flag)
            s = 2;
    }
    return 0;
}
