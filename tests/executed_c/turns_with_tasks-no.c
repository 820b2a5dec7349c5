int sum[8];
int main(void) {
#pragma omp parallel for
    for (int i = 0; i < 8; i++) {
        int one = 0, two = 0;
#pragma omp task shared(one)
        one = i;
#pragma omp task shared(two)
        two = i;
#pragma omp taskwait
        sum[i] = one + two;
    }
    return 0;
}
