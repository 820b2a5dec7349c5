int a[4][4], found;
int main(void) {
    for (int i = 0; i < 4; i++) {
        int row[2] = {i, i};
        for (int j = 0; j < 4; j++) {
            int here[1] = {i + j};
            if (here[0] + row[0] == 4)
                goto out;
        }
    }
    found = 1;
out:
#pragma omp parallel num_threads(2)
    {
#pragma omp single
        {
#pragma omp task
            a[0][0] = 1;
#pragma omp task
            a[1][0] = 2;
        }
    }
    return found;
}
