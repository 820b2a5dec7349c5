static int x;
static void leaf(void) {
#pragma omp single nowait
    {
#pragma omp task depend(inout : x)
        x++;
    }
}
static void twice(void) { leaf(); (void)0; leaf(); }
int main(void) {
#pragma omp parallel
    twice();
    return x;
}
