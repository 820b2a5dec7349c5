int main(void) {
    int i, x = 0;
#pragma omp parallel for
    for (i = 0; i < 10; i++)
        x = i;
    return x;
}
