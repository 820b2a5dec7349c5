int a[20];
int main(void) {
#pragma omp parallel for
    for (int i = 0; i < 19; i++)
        a[i] = a[i + 1] + 1;
    return 0;
}
