/* another task puts into `x` what it finds in `b` */
int s;
int b[4];
void fill(int *);
int main(void)
{
    fill(b);
    #pragma omp parallel
    #pragma omp single
    {
        int x = 0;
        #pragma omp task shared(x)
        x = b[0];
        #pragma omp taskwait
        #pragma omp task
        s = 1;
        if (x > 0)
            s = 2;
    }
    return 0;
}
