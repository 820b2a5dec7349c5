/* The place of the flag stands in memory, through which it is written. */
int flag = 0;
int *where = &flag;
int x;
int main(int argc, char **argv)
{
    *where = 0;
    #pragma omp parallel
    #pragma omp single
    {
        #pragma omp task
        x = 1;
        if (flag) {
            #pragma omp task
            x = 2;
        }
    }
    return 0;
}
