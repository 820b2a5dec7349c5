/* an element of `b` is a parameter, and decides whether `s` is written twice */
int s;
int b[4];
void fill(int *);
static void put(int on)
{
    if (on)
        s = 2;
}
int main(void)
{
    fill(b);
    #pragma omp parallel
    #pragma omp single
    {
        #pragma omp task
        s = 1;
        put(b[0]);
    }
    return 0;
}
