int n, in[20];
int main(void) {
#pragma omp parallel for
    for (int i = 0; i < 20; i++)
        if (in[i] == 0) {
#pragma omp atomic
            n++;
        }
    return 0;
}
