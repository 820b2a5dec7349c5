/* The flag is written through a pointer, so other numbers may stand there. */
int flag = 0;
int x;
void set(int *where, int value) { *where = value; }
int main(int argc, char **argv)
{
    set(&flag, 0);
    #pragma omp parallel
    #pragma omp single
    {
        #pragma omp task
        x = 1;
        if (flag) {
            #pragma omp task
            x = 2;
        }
    }
    return 0;
}
