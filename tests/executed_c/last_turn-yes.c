/* what a loop's turn finds in `b` decides in the next turn */
int s;
int b[4];
void fill(int *);
int main(void)
{
    fill(b);
    #pragma omp parallel
    #pragma omp single
    {
        int found = 0;
        #pragma omp task
        s = 1;
        for (int i = 0; i < 4; i++) {
            if (found)
                s = 2;
            found = b[i];
        }
    }
    return 0;
}
