/* a function gives an element of `b`, which is the index of what is written */
int a[4];
int b[4];
void fill(int *);
static int choose(int i)
{
    return b[i];
}
int main(void)
{
    fill(b);
    #pragma omp parallel
    #pragma omp single
    {
        #pragma omp task
        a[1] = 1;
        a[choose(2)] = 2;
    }
    return 0;
}
