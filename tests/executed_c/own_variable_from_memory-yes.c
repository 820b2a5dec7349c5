/* only its own task changes `i`, but what it has comes from `b` */
static void take(int *i, const int *from)
{
    *i = *from;
}
int s;
int b[4];
void fill(int *);
int main(void)
{
    fill(b);
    #pragma omp parallel
    #pragma omp single
    {
        int i;
        #pragma omp task
        s = 1;
        take(&i, b);
        if (i > 0)
            s = 2;
    }
    return 0;
}
