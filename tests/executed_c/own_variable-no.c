/* the address of `i` is taken, but only its own task changes it: it is never 0 behind `next` */
static void next(int *i)
{
    (*i)++;
}
int a[10];
int main(void)
{
    #pragma omp parallel
    #pragma omp single
    {
        int i = 0;
        #pragma omp task
        a[0] = 1;
        while (i < 9) {
            next(&i);
            if (i == 0)
                a[0] = 2;
            a[i] = 3;
        }
    }
    return 0;
}
