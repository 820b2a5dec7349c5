int in[20], out[20];
int main(void) {
    int n = 0;
#pragma omp parallel for
    for (int i = 0; i < 20; i++)
        out[n++] = in[i];
    return n;
}
