int x;
static void set(int n) {
#pragma omp single
    x = n;
    if (n > 0)
        set(n - 1);
}
int main(void) {
#pragma omp parallel
    set(2);
    return x;
}
