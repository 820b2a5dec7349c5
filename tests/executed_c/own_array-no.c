/* an array of each thread's own */
int a[16];
int main(void) {
#pragma omp parallel
    {
        int row[4];
#pragma omp for
        for (int i = 0; i < 16; i++) {
            for (int k = 0; k < 4; k++)
                row[k] = i + k;
            a[i] = row[0] + row[3];
        }
    }
    return 0;
}
