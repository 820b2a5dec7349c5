int x;
int main(void) {
    int i;
#pragma omp parallel for lastprivate(x)
    for (i = 0; i < 10; i++)
        x = i;
    return x;
}
