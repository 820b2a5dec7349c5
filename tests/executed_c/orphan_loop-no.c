int a[10];
static void share(void) {
#pragma omp for
    for (int i = 0; i < 10; i++)
        a[i] = i;
}
int main(void) {
#pragma omp parallel
    share();
    return 0;
}
