int x, y;
static void both(int *to) {
#pragma omp sections
    {
#pragma omp section
        *to = 1;
#pragma omp section
        y = x;
    }
}
int main(void) {
#pragma omp parallel
    both(&x);
    return 0;
}
