static void meet(void) {
#pragma omp barrier
}
int main(void) {
#pragma omp parallel
    {
        meet();
        meet();
    }
    return 0;
}
