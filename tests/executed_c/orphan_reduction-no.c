int a[8], sum;
static void add(int n) {
#pragma omp for reduction(+ : sum)
    for (int i = 0; i < n; i++)
        sum += a[i];
}
static void both(int n) {
    add(n / 2);
    if (n < 2)
        return;
    add(n);
}
int main(void) {
    int total;
#pragma omp parallel
    both(8);
    total = sum;
    return total;
}
