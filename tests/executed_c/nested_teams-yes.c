int x;
static void all(void) {
#pragma omp parallel
    x += 1;
}
int main(void) {
#pragma omp parallel
    all();
    return 0;
}
