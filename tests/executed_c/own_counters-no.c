/* what each turn sets before it is read is no race, though the thread declares it */
int a[8][4], b[8];
int main(void) {
    int i, k, row;
#pragma omp parallel private(i, k, row)
    {
#pragma omp for
        for (i = 0; i < 8; i++) {
            row = 7 - i;
            for (k = 0; k < 4; k++)
                a[row][k] = k;
            b[row] = row;
        }
    }
    return 0;
}
