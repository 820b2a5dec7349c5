int x, y;
static void set(void) {
#pragma omp single nowait
    x = 1;
}
static void use(void) {
#pragma omp single
    y = x;
}
int main(void) {
#pragma omp parallel
    {
        set();
        use();
    }
    return 0;
}
