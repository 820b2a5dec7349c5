int a[20];
int main(void) {
    int s = 0;
#pragma omp parallel reduction(+ : s)
    {
#pragma omp for
        for (int i = 0; i < 20; i++)
            s += a[i];
        s += 1;
    }
    return s > 0;
}
