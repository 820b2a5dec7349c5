int at[6] = {0, 2, 4, 2, 6, 8}, a[10];
int main(void) {
#pragma omp parallel for
    for (int i = 0; i < 6; i++)
        a[at[i]] += i;
    return 0;
}
