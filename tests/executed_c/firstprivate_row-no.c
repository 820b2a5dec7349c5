int out[12];
int main(void) {
    int row[4] = {1, 2, 3, 4};
#pragma omp parallel firstprivate(row)
    {
        row[0] += 1;
#pragma omp for
        for (int i = 0; i < 12; i++)
            out[i] = row[i % 4];
    }
    return row[0];
}
