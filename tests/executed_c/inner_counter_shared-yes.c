double a[6][6], b[6][6];
int main(void) {
    int i, j;
#pragma omp parallel for
    for (i = 0; i < 6; i++)
        for (j = 0; j < 6; j++)
            a[i][j] = b[j][i];
    return 0;
}
