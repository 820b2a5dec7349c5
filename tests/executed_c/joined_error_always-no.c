/* an element is only read where there is one: on other ways there is nothing that could race */
int n, s;
int a[4];
void fill(int *);
int main(void)
{
    fill(&n);
    #pragma omp parallel
    #pragma omp single
    {
        int last = 7;
        #pragma omp task
        s = 1;
        if (n > 7)
            a[last] = 2;
        a[0] = 1;
    }
    return 0;
}
