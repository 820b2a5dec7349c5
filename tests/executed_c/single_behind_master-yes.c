/* another thread than the first may do what is single */
int x;
int main(void) {
#pragma omp parallel
    {
#pragma omp master
        x = 1;
#pragma omp single
        x = 2;
    }
    return 0;
}
